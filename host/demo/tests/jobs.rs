//! Jobs as files: what is written is read again, each mistake is named with its line, and what a job is short of is said.

use maghnelt::MAX_POINTS;
use maghnelt_demo::adjust::{Adjustment, Failure};
use maghnelt_demo::equations::Way;
use maghnelt_demo::height::Height;
use maghnelt_demo::job::Job;
use maghnelt_demo::picture::Picture;
use maghnelt_demo::pose::Pose;
use maghnelt_demo::{room, saves};

#[test]
fn a_job_that_is_written_is_read_again() {
    let job = room::job(9, 4);
    let read = Job::read(&job.write()).unwrap();
    assert_eq!(read.sigma, job.sigma);
    assert_eq!(read.points(), job.points());
    for (read, station) in read.stations.iter().zip(&job.stations) {
        let pairs = [
            (read.pose, station.pose),
            (read.truth.unwrap(), station.truth.unwrap()),
        ];
        for (read, written) in pairs {
            let (metres, radians) = read.distance(&written);
            assert!(metres < 1e-6 && radians < 1e-6);
        }
    }
}

#[test]
fn a_file_may_have_comments_and_blanks() {
    let text =
        "# a walk\n\nsigma, 0.004\npose, 1, 2, 3, 0, 0, 0 # here\n point , a wall , 1, 2, 3\n";
    let job = Job::read(text).unwrap();
    assert_eq!(job.sigma, 0.004);
    assert_eq!(job.surfaces[0].name, "a wall");
    assert_eq!(job.stations[0].points, [(0, [1.0, 2.0, 3.0])]);
}

#[test]
fn mistakes_are_named() {
    for (text, says) in [
        ("", "the job has no pose"),
        ("pose,0,0,0,0,0,0", "pose 1 saw no point"),
        (
            "pose,0,0,0",
            "line 1: a pose needs six numbers: pose,X,Y,Z,YAW,PITCH,ROLL",
        ),
        (
            "pose,0,0,0,0,0,north",
            "line 1: \"north\" is no number; a pose needs six numbers: pose,X,Y,Z,YAW,PITCH,ROLL",
        ),
        (
            "\npoint,wall,1,2,3",
            "line 2: a point comes after the pose that saw it",
        ),
        ("truth,0,0,0,0,0,0", "line 1: a truth comes after its pose"),
        (
            "pose,0,0,0,0,0,0\npoint,1,2,3",
            "line 2: a surface and three numbers are needed: point,SURFACE,X,Y,Z",
        ),
        ("fixed,wall,1,2,nan", "line 1: nan is not finite"),
        ("sigma,0", "line 1: sigma has to be above 0, and is 0"),
        (
            "sigma,",
            "line 1: \"\" is no number; sigma needs one number: sigma,METRES",
        ),
        (
            "walls,3",
            "line 1: a line begins with pose, truth, point, fixed or sigma, not with \"walls\"",
        ),
    ] {
        assert_eq!(Job::read(text).unwrap_err().to_string(), says);
    }
    let crowd = "pose,0,0,0,0,0,0\npoint,wall,1,2,3\n".repeat(171);
    let says = "the job has 171 poses, and 170 are the most that one Hessian holds";
    assert_eq!(Job::read(&crowd).unwrap_err().to_string(), says);
}

/// A job in which two poses see the same squares, each at a right angle to one axis, which goes through its middle.
fn squares(axes: &[usize]) -> Job {
    let mut text = String::new();
    for _ in 0..2 {
        text.push_str("pose,0,0,0,0,0,0\n");
        for &axis in axes {
            for (u, v) in [(-1, -1), (-1, 1), (1, -1), (1, 1), (0, 0)] {
                let mut point = [u, v, v];
                point[(axis + 1) % 3] = u;
                point[(axis + 2) % 3] = v;
                point[axis] = 5;
                let [x, y, z] = point;
                text.push_str(&format!("point,square {axis},{x},{y},{z}\n"));
            }
        }
    }
    Job::read(&text).unwrap()
}

#[test]
fn a_loose_pose_is_named() {
    for way in [Way::Moments, Way::Points] {
        for height in [Height::Free, Height::Locked] {
            let settle = |axes: &[usize]| {
                let job = squares(axes);
                let adjustment = Adjustment::new(&job, way, height).unwrap();
                adjustment.settle(&job, |_, _| {})
            };
            let loose = Err(Failure::Loose { pose: 1, height });
            assert_eq!(settle(&[2]), loose);
            assert_eq!(settle(&[1, 2]), loose);
            // Without a floor nothing holds a height that is not locked.
            match height {
                Height::Free => assert_eq!(settle(&[0, 1]), loose),
                Height::Locked => assert!(settle(&[0, 1]).is_ok()),
            }
            assert!(settle(&[0, 1, 2]).is_ok());
        }
    }
}

#[test]
fn what_a_loose_pose_needs_is_said() {
    for (height, needed) in [
        (Height::Free, "a floor and two walls that meet are needed"),
        (Height::Locked, "two walls that meet are needed"),
    ] {
        assert_eq!(
            Failure::Loose { pose: 3, height }.to_string(),
            format!("pose 3 is not held by the surfaces it saw: {needed}")
        );
    }
}

#[test]
fn a_locked_height_that_is_wrong_stays_and_shows() {
    const OFF: f64 = 0.012;
    let mut job = squares(&[0, 1, 2]);
    job.stations[1].pose.shift[2] = OFF;
    let odometry = job.stations.iter().map(|s| s.pose).collect::<Vec<_>>();
    let settled = |height| {
        let mut last = None;
        let adjustment = Adjustment::new(&job, Way::Moments, height).unwrap();
        let poses = adjustment.settle(&job, |_, now| last = Some(*now));
        (poses.unwrap(), last.unwrap())
    };
    let near = |a: f64, b: f64| (a - b).abs() < 1e-12;

    // The ceiling is fitted halfway between the two that are seen. All its points are as far off, so that no tilt would bring
    // them nearer, and no pose moves. Of thirty points ten are off by half of what the height is.
    let (poses, last) = settled(Height::Locked);
    for (pose, before) in poses.iter().zip(&odometry) {
        let (metres, radians) = pose.distance(before);
        assert!(near(metres, 0.0) && near(radians, 0.0), "{pose:?}");
        assert_eq!(pose.shift[2].to_bits(), before.shift[2].to_bits());
    }
    assert!(near(last.thickness, OFF / 12f64.sqrt()), "{last:?}");

    let (_, last) = settled(Height::Free);
    assert!(
        near(last.lifted, OFF) && near(last.thickness, 0.0),
        "{last:?}"
    );
}

#[test]
fn surfaces_seen_once_are_left_out() {
    let mut job = squares(&[0, 1, 2]);
    let lone = job.surface("lone");
    job.stations[0].points.push((lone, [1.0, 1.0, 1.0]));
    assert_eq!(
        Adjustment::new(&job, Way::Moments, Height::Free)
            .unwrap()
            .unused,
        [lone]
    );

    job.stations.truncate(1);
    assert_eq!(
        Adjustment::new(&job, Way::Moments, Height::Free).unwrap_err(),
        Failure::NothingShared
    );
}

#[test]
fn what_the_library_refuses_is_said() {
    let mut job = squares(&[0, 1, 2]);
    let thin = job.surface("thin");
    for station in &mut job.stations {
        station.points.push((thin, [1.0, 1.0, 1.0]));
    }
    let says =
        "surface \"thin\": reason 5: the frames' counts summed in order, plus the fixed count \
                (in a bundle, numbers of points), are below 3";
    let refused = Adjustment::new(&job, Way::Moments, Height::Free).unwrap_err();
    assert_eq!(refused.to_string(), says);
    // Points are tested when they are carried into the site.
    let adjustment = Adjustment::new(&job, Way::Points, Height::Free).unwrap();
    let refused = adjustment.settle(&job, |_, _| {}).unwrap_err();
    assert_eq!(refused.to_string(), says);
}

#[test]
fn a_surface_of_too_many_points_is_said() {
    let mut job = squares(&[0, 1, 2]);
    let known = &mut job.surfaces[1].fixed;
    // Ten points were seen.
    known.resize(MAX_POINTS - 10, [1.0, 5.0, 1.0]);
    assert!(Adjustment::new(&job, Way::Points, Height::Free).is_ok());
    job.surfaces[1].fixed.push([1.0, 5.0, 1.0]);
    assert_eq!(
        Adjustment::new(&job, Way::Points, Height::Free).unwrap_err().to_string(),
        "surface \"square 1\": its 65537 points are more than the 65536 that a plane takes point by point; \
         without --bundle moments stand for them"
    );
    assert!(Adjustment::new(&job, Way::Moments, Height::Free).is_ok());
}

#[test]
fn own_moments_stay_and_moved_sums_walk_off() {
    let job = room::job(60, 30);
    let adjustment = Adjustment::new(&job, Way::Moments, Height::Free).unwrap();
    let adjusted = adjustment.settle(&job, |_, _| {}).unwrap();
    let odometry: Vec<Pose> = job.stations.iter().map(|s| s.pose).collect();
    let is_wall = |surface: usize| job.surfaces[surface].name == room::STORY_WALL;
    let wall = adjustment
        .planes
        .iter()
        .find(|p| is_wall(p.surface))
        .unwrap();
    let story = saves::story(wall, &odometry, &adjusted).unwrap().unwrap();
    assert_eq!(story.own.len(), 1 + saves::SAVES);
    for stand in &story.own {
        assert_eq!(stand.offset.to_bits(), story.own[0].offset.to_bits());
        assert!((stand.offset - 7.5).abs() < 0.002);
    }
    for pair in story.moved.windows(2) {
        assert!(pair[1].drift.abs() > pair[0].drift.abs() + 0.01);
        assert!(pair[1].thickness > pair[0].thickness + 0.005);
    }
    let picture = Picture {
        job: &job,
        walls: &room::WALLS,
        adjusted: &adjusted,
        steps: &[],
        height: Height::Free,
        wall: wall.surface,
        story: &story,
    };
    has_its_words(picture);
}

/// The words of a picture, with heights free and with heights locked.
fn has_its_words(picture: Picture) {
    let free = picture.svg();
    assert!(free.starts_with("<svg") && free.ends_with("</svg>\n"));
    assert!(!free.contains("NaN") && !free.contains("inf"));
    for words in [
        "A room scanned on a walk, before",
        "alcove wall",
        "before: by odometry",
        "after: adjusted",
        "1 m",
    ] {
        assert!(free.contains(words), "{words}");
    }
    assert!(!free.contains("locked"));
    let locked = Picture {
        height: Height::Locked,
        ..picture
    };
    let locked = locked.svg();
    for words in [
        "A room scanned at locked heights, before",
        "heights locked, 5 unknowns a pose",
    ] {
        assert!(locked.contains(words), "{words}");
    }
}
