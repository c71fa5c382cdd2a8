//! What `./run` shows: a room scanned on a walk, its poses adjusted until the walls are thin, and the story of a wall.

use maghnelt_demo::adjust::{Adjustment, PlaneFactor, Progress};
use maghnelt_demo::equations::Way;
use maghnelt_demo::height::Height;
use maghnelt_demo::job::Job;
use maghnelt_demo::options::{Options, HELP};
use maghnelt_demo::picture::Picture;
use maghnelt_demo::pose::Pose;
use maghnelt_demo::saves::{self, Story};
use maghnelt_demo::{room, speed};
use std::error::Error;
use std::ffi::c_int;
use std::fs;
use std::io::Write as _;
use std::process::ExitCode;
use std::time::Instant;

extern "C" {
    fn signal(signal: c_int, handler: usize) -> usize;
}

/// A reader that has seen enough, as `head` has, ends the program without a word.
fn end_with_the_reader() {
    const SIGPIPE: c_int = 13;
    const DEFAULT: usize = 0;
    // SAFETY: the default action runs no code of this program.
    unsafe { signal(SIGPIPE, DEFAULT) };
}

fn main() -> ExitCode {
    end_with_the_reader();
    let options = match Options::read(std::env::args().skip(1)) {
        Ok(options) => options,
        Err(what) => {
            eprintln!("run: {what}");
            return ExitCode::from(2);
        }
    };
    if options.help {
        print!("{HELP}");
        return ExitCode::SUCCESS;
    }
    match run(&options) {
        Ok(()) => ExitCode::SUCCESS,
        Err(what) => {
            eprintln!("run: {what}");
            ExitCode::FAILURE
        }
    }
}

fn run(options: &Options) -> Result<(), Box<dyn Error>> {
    let start = Instant::now();
    let job = the_job(options)?;
    if let Some(file) = &options.write_job {
        write_file(file, &job.write())?;
        println!("{} written to {file}", counted(job.stations.len(), "pose"));
        return Ok(());
    }
    show_job(&job);
    let adjustment = Adjustment::new(&job, options.way, options.height)?;
    show_planes(&job, &adjustment, options.way);
    if options.height == Height::Locked {
        show_unknowns(&job, options.way);
    }
    let wall = &adjustment.planes[wall(options, &job, &adjustment)?];
    let (adjusted, steps) = settle(&job, &adjustment, options.height)?;
    if options.way == Way::Points {
        compare_with_moments(&job, options.height, &adjusted)?;
    }
    if options.height == Height::Locked {
        compare_with_free(&job, options.way, &steps)?;
    }
    tell_and_draw(options, &job, wall, &adjusted, &steps)?;
    show_speed(options)?;
    println!("Done in {:.1} s.", start.elapsed().as_secs_f64());
    Ok(())
}

/// The story of the wall, and the picture.
fn tell_and_draw(
    options: &Options,
    job: &Job,
    wall: &PlaneFactor,
    adjusted: &[Pose],
    steps: &[Progress],
) -> Result<(), Box<dyn Error>> {
    let odometry: Vec<Pose> = job.stations.iter().map(|s| s.pose).collect();
    let name = &job.surfaces[wall.surface].name;
    let story = saves::story(wall, &odometry, adjusted)?
        .ok_or_else(|| format!("the points of {name:?} lie in no plane"))?;
    show_story(name, &story);

    let file = options.picture.as_deref().unwrap_or("room.svg");
    let picture = Picture {
        job,
        walls: if options.job.is_none() {
            &room::WALLS
        } else {
            &[]
        },
        adjusted,
        steps,
        height: options.height,
        wall: wall.surface,
        story: &story,
    };
    write_file(file, &picture.svg())?;
    println!();
    println!("The picture is in {file}.");
    Ok(())
}

fn the_job(options: &Options) -> Result<Job, Box<dyn Error>> {
    let Some(file) = &options.job else {
        let (seed, poses) = (options.seed, options.poses);
        let (how, job) = match options.height {
            Height::Free => ("on a walk".to_owned(), room::job(seed, poses)),
            Height::Locked => {
                let trolley = format!("from a trolley, {} m above the floor,", room::CARRIED_AT);
                (trolley, room::trolley_job(seed, poses))
            }
        };
        println!(
            "A room of seed {seed}: walls, a floor and an alcove, scanned {how} with {:.0} mm of noise.",
            1000.0 * room::NOISE
        );
        return Ok(job);
    };
    let text = fs::read_to_string(file).map_err(|why| format!("{file} can't be read: {why}"))?;
    Ok(Job::read(&text).map_err(|why| format!("{file}: {why}"))?)
}

fn write_file(file: &str, text: &str) -> Result<(), String> {
    fs::write(file, text).map_err(|why| format!("{file} can't be written: {why}"))
}

fn counted(number: usize, thing: &str) -> String {
    let more = if number == 1 { "" } else { "s" };
    format!("{number} {thing}{more}")
}

fn show_job(job: &Job) {
    let (seen, known) = job.points();
    println!(
        "{} saw {} on {}; {known} more are known in the site.",
        counted(job.stations.len(), "pose"),
        counted(seen, "point"),
        counted(job.surfaces.len(), "surface")
    );
}

fn show_planes(job: &Job, adjustment: &Adjustment, way: Way) {
    let frames: usize = adjustment.planes.iter().map(|p| p.poses.len()).sum();
    let what = match way {
        Way::Moments => "each frame's moments stand for its points from here on",
        Way::Points => "each point keeps a row of its own",
    };
    println!(
        "{} with {}: {what}.",
        counted(adjustment.planes.len(), "plane"),
        counted(frames, "frame")
    );
    let names = adjustment
        .unused
        .iter()
        .map(|&s| job.surfaces[s].name.as_str());
    let few: Vec<&str> = names.take(5).collect();
    if !few.is_empty() {
        let more = adjustment.unused.len() - few.len();
        let others = if more > 0 {
            format!(" and {more} more")
        } else {
            String::new()
        };
        println!(
            "Seen from one place only, and so left out: {}{others}.",
            few.join(", ")
        );
    }
}

fn show_unknowns(job: &Job, way: Way) {
    let [locked, free] = [Height::Locked, Height::Free].map(Height::unknowns);
    let how = match way {
        Way::Moments => {
            format!("each frame's block goes through a transform of {free} by {locked}")
        }
        Way::Points => format!("each point's row has {locked} columns"),
    };
    let poses = job.stations.len();
    println!(
        "Heights are locked: {locked} unknowns a pose, {} in all, in place of {}; {how}.",
        locked * poses,
        free * poses
    );
}

/// Gauss-Newton with a line of the table for each step, as it is made.
fn settle(
    job: &Job,
    adjustment: &Adjustment,
    height: Height,
) -> Result<(Vec<Pose>, Vec<Progress>), Box<dyn Error>> {
    println!();
    println!("Gauss-Newton, until the cost settles:");
    println!();
    let heights = match height {
        Height::Free => "",
        Height::Locked => "            heights moved",
    };
    println!("  step             cost   wall thickness   worst pose{heights}");
    let mut steps: Vec<Progress> = Vec::new();
    let adjusted = adjustment.settle(job, |step, now| {
        show_step(step, now, height);
        steps.push(*now);
    })?;
    if let Some(last) = steps.last() {
        println!();
        println!(
            "The walls are {:.2} mm thick; the scanner's noise is {:.2} mm.",
            1000.0 * last.thickness,
            1000.0 * job.sigma
        );
    }
    Ok((adjusted, steps))
}

/// A line of the table.
fn show_step(step: usize, now: &Progress, height: Height) {
    let worst = now
        .worst
        .map_or("         not known".to_owned(), |(metres, radians)| {
            format!("{:>8.2} mm {:>6.3}°", 1000.0 * metres, radians.to_degrees())
        });
    let worst = match height {
        Height::Free => worst,
        Height::Locked => format!("{worst:<19}   {:>10.3} mm", 1000.0 * now.lifted),
    };
    let millimetres = 1000.0 * now.thickness;
    println!(
        "  {step:>4}   {:>14.1}   {millimetres:>11.3} mm   {worst}   {}",
        now.cost,
        bar(millimetres)
    );
    // A line shows when it is worked out, also through a pipe.
    let _ = std::io::stdout().flush();
}

/// How far from the poses adjusted point by point those adjusted by moments are.
fn compare_with_moments(
    job: &Job,
    height: Height,
    adjusted: &[Pose],
) -> Result<(), Box<dyn Error>> {
    let by_moments = Adjustment::new(job, Way::Moments, height)?.settle(job, |_, _| {})?;
    let off = adjusted.iter().zip(&by_moments).map(|(a, b)| a.distance(b));
    let (metres, radians) = off.fold((0.0f64, 0.0f64), |most, one| {
        (most.0.max(one.0), most.1.max(one.1))
    });
    println!(
        "By moments no pose ends more than {:.1e} mm and {:.1e}° from there.",
        1000.0 * metres,
        radians.to_degrees()
    );
    Ok(())
}

/// How far heights moved, and what they and the walls would be without the lock: walls that would be thinner tell of heights that
/// are wrong.
fn compare_with_free(job: &Job, way: Way, steps: &[Progress]) -> Result<(), Box<dyn Error>> {
    let moved = steps.iter().map(|now| now.lifted).fold(0.0, f64::max);
    print!("No height moved by more than {} mm. ", 1000.0 * moved);
    let mut free = None;
    let settled = Adjustment::new(job, way, Height::Free)?.settle(job, |_, now| free = Some(*now));
    match (settled, free) {
        (Ok(_), Some(free)) => println!(
            "Free, one would move by {:.2} mm, and the walls would be {:.2} mm thick.",
            1000.0 * free.lifted,
            1000.0 * free.thickness
        ),
        (Err(why), _) => println!("Free, there would be no adjustment: {why}."),
        _ => println!(),
    }
    Ok(())
}

/// A bar that is four signs longer for each doubling above a millimetre.
fn bar(millimetres: f64) -> String {
    let signs = (4.0 * millimetres.max(1.0).log2()).round().min(40.0);
    "▇".repeat(signs as usize)
}

/// The plane of the story: the one asked for, the room's alcove, or the job's first.
fn wall(options: &Options, job: &Job, adjustment: &Adjustment) -> Result<usize, String> {
    let named = |name: &str| {
        let is = |plane: &PlaneFactor| job.surfaces[plane.surface].name == name;
        adjustment.planes.iter().position(is)
    };
    match &options.wall {
        Some(name) => named(name).ok_or_else(|| {
            let known: Vec<&str> = adjustment
                .planes
                .iter()
                .map(|plane| job.surfaces[plane.surface].name.as_str())
                .collect();
            format!(
                "no wall {name:?} was seen twice; there are: {}",
                known.join(", ")
            )
        }),
        None => Ok(named(room::STORY_WALL).unwrap_or(0)),
    }
}

fn show_story(name: &str, story: &Story) {
    println!();
    println!(
        "The story of the wall: where {name:?} stands after each save, by what is in the file."
    );
    println!();
    println!("           each frame's own moments       sums moved, and moved again on loading");
    println!("  saves       offset         drift           offset         drift     thickness");
    for (saves, (own, moved)) in story.own.iter().zip(&story.moved).enumerate() {
        let [own_offset, own_drift, offset, drift, thickness] = [
            own.offset,
            own.drift,
            moved.offset,
            moved.drift,
            moved.thickness,
        ]
        .map(|metres| 1000.0 * metres);
        println!(
            "  {saves:>5}   {own_offset:>9.3} mm  {own_drift:>7.3} mm      {offset:>9.3} mm  {drift:>7.3} mm  {thickness:>8.3} mm"
        );
    }
}

fn show_speed(options: &Options) -> Result<(), Box<dyn Error>> {
    let times = speed::measure(options.seed, options.way, options.height)?;
    let [build, pass] = [times.build, times.pass].map(|time| time.as_secs_f64() * 1e3);
    let accumulate = match options.height {
        Height::Free => "accumulate",
        Height::Locked => "accumulate_transformed",
    };
    let what = match options.way {
        Way::Moments => {
            format!("factors built in {build:.0} ms, one pass of fit, dsyev and {accumulate}")
        }
        Way::Points => {
            "one pass of points carried into the site, fit, dsyev, linearize and JᵀJ".to_owned()
        }
    };
    let each = 1e3 * pass / speed::PLANES as f64;
    println!(
        "Ten thousand planes, {} frames, {} points: {what} {pass:.0} ms, {each:.1} µs a plane.",
        times.frames, times.points
    );
    Ok(())
}
