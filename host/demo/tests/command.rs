//! The program as a user calls it: a whole run, and mistakes with a clear word and an exit status that is not 0.

use std::fs;
use std::path::{Path, PathBuf};
use std::process::{Command, Output};

/// A folder of its own, gone with the test.
struct Folder(PathBuf);

impl Folder {
    fn new(name: &str) -> Folder {
        let folder = Path::new(env!("CARGO_TARGET_TMPDIR")).join(name);
        fs::create_dir_all(&folder).unwrap();
        Folder(folder)
    }

    fn run(&self, words: &[&str]) -> Output {
        let program = env!("CARGO_BIN_EXE_maghnelt-demo");
        Command::new(program)
            .current_dir(&self.0)
            .args(words)
            .output()
            .unwrap()
    }

    /// What a run that succeeds says.
    fn says(&self, words: &[&str]) -> String {
        let output = self.run(words);
        assert!(output.status.success(), "{}", text(&output.stderr));
        text(&output.stdout)
    }
}

impl Drop for Folder {
    fn drop(&mut self) {
        let _ = fs::remove_dir_all(&self.0);
    }
}

fn text(bytes: &[u8]) -> String {
    String::from_utf8(bytes.to_vec()).unwrap()
}

#[test]
fn a_run_shows_the_job_and_draws_it() {
    let folder = Folder::new("whole");
    let said = folder.says(&[]);
    for words in [
        "30 poses saw",
        "mm thick; the scanner's noise is 2.00 mm.",
        "The story of the wall",
        "Ten thousand planes",
        "The picture is in room.svg.",
    ] {
        assert!(said.contains(words), "{words}\n{said}");
    }
    let picture = fs::read_to_string(folder.0.join("room.svg")).unwrap();
    assert!(picture.starts_with("<svg"));
    for words in ["heights", "locked", "trolley"] {
        assert!(
            !said.contains(words) && !picture.contains(words),
            "{words}\n{said}"
        );
    }
}

#[test]
fn a_run_with_locked_heights_says_so_and_draws_it() {
    let folder = Folder::new("locked");
    let said = folder.says(&["--lock-height"]);
    for words in [
        "scanned from a trolley, 1.55 m above the floor, with 2 mm of noise.",
        "Heights are locked: 5 unknowns a pose, 150 in all, in place of 180; \
         each frame's block goes through a transform of 6 by 5.",
        "No height moved by more than 0 mm. Free, one would move by 0.",
        "mm thick; the scanner's noise is 2.00 mm.",
    ] {
        assert!(said.contains(words), "{words}\n{said}");
    }
    let steps = table(&said);
    assert!(steps[0].ends_with("heights moved"), "{said}");
    for line in &steps[1..] {
        assert!(line.contains("°        0.000 mm   ▇"), "{line}");
    }
    let picture = fs::read_to_string(folder.0.join("room.svg")).unwrap();
    for words in ["at locked heights", "heights locked, 5 unknowns a pose"] {
        assert!(picture.contains(words), "{words}");
    }
}

/// The options that make a small room.
const SMALL: [&str; 4] = ["--seed", "4", "--poses", "8"];

impl Folder {
    /// Writes the job of the small room, scanned from a trolley, and gives its text.
    fn trolley_job(&self, file: &str) -> String {
        self.says(&[&SMALL[..], &["--lock-height", "--write-job", file]].concat());
        fs::read_to_string(self.0.join(file)).unwrap()
    }
}

#[test]
fn heights_of_a_job_are_locked_where_the_job_has_them() {
    let folder = Folder::new("heights");
    let job = folder.trolley_job("trolley.csv");
    let poses: Vec<&str> = job.lines().filter(|l| l.starts_with("pose,")).collect();
    assert_eq!(poses.len(), 8);
    let height = |line: &&str| line.split(',').nth(3) == Some("1.550000");
    assert!(poses.iter().all(height), "{poses:?}");

    let locked = ["--lock-height", "--job", "trolley.csv"];
    let by_moments = folder.says(&locked);
    let by_points = folder.says(&[&locked[..], &["--bundle"]].concat());
    assert_eq!(table(&by_points), table(&by_moments));
    for words in [
        "each point's row has 5 columns.",
        "By moments no pose ends more than",
    ] {
        assert!(by_points.contains(words), "{words}\n{by_points}");
    }
    // A file rounds to micrometres, which shows in the cost alone.
    let made = folder.says(&[&SMALL[..], &["--lock-height"]].concat());
    let last = |said: &str| table(said).last().map(|line| line[24..].to_owned());
    assert_eq!(last(&made), last(&by_moments));
}

#[test]
fn walls_alone_hold_poses_of_known_height() {
    let folder = Folder::new("walls");
    let job = folder.trolley_job("trolley.csv");
    let walls: Vec<&str> = job.lines().filter(|l| !l.contains(",floor,")).collect();
    fs::write(folder.0.join("walls.csv"), walls.join("\n")).unwrap();
    let loose =
        "pose 1 is not held by the surfaces it saw: a floor and two walls that meet are needed";
    let said = folder.says(&["--lock-height", "--job", "walls.csv"]);
    let free = format!("Free, there would be no adjustment: {loose}.\n");
    assert!(said.contains(&free), "{said}");
    let output = folder.run(&["--job", "walls.csv"]);
    assert_eq!(text(&output.stderr), format!("run: {loose}\n"));
}

/// The lines of the steps in what a run says.
fn table(said: &str) -> Vec<&str> {
    let lines = said.lines().skip_while(|line| !line.starts_with("  step"));
    let steps: Vec<&str> = lines.take_while(|line| !line.is_empty()).collect();
    assert!(steps.len() > 2, "{said}");
    steps
}

#[test]
fn a_job_that_was_written_runs_by_moments_and_point_by_point() {
    let folder = Folder::new("written");
    folder.says(&["--seed", "4", "--poses", "8", "--write-job", "room.csv"]);
    let by = |words: &[&str], picture: &str| {
        let common = ["--job", "room.csv", "--wall", "east wall", "--picture"];
        let said = folder.says(&[&common[..], &[picture], words].concat());
        assert!(
            said.contains("8 poses saw") && said.contains("\"east wall\" stands"),
            "{said}"
        );
        (said, fs::read_to_string(folder.0.join(picture)).unwrap())
    };
    let (by_moments, drawn) = by(&[], "east.svg");
    let (by_points, drawn_again) = by(&["--bundle"], "again.svg");
    // To the digits that are shown.
    assert_eq!(table(&by_points), table(&by_moments));
    assert_eq!(drawn_again, drawn);
    let only_points = "By moments no pose ends more than";
    assert!(by_points.contains(only_points), "{by_points}");
    assert!(!by_moments.contains(only_points), "{by_moments}");
}

#[test]
fn mistakes_end_with_a_clear_word() {
    let folder = Folder::new("mistakes");
    fs::write(
        folder.0.join("bad.csv"),
        "pose,0,0,0,0,0,0\npoint,wall,1,2\n",
    )
    .unwrap();
    for (words, status, says) in [
        (&["--poses", "2"][..], 2, "run: --poses takes 3 to 170, not 2\n"),
        (&["--walls"], 2, "run: \"--walls\" is no option; ./run --help lists them\n"),
        (&["--lock-height", "1.5"], 2, "run: \"1.5\" is no option; ./run --help lists them\n"),
        (
            &["--job", "bad.csv"],
            1,
            "run: bad.csv: line 2: a surface and three numbers are needed: point,SURFACE,X,Y,Z\n",
        ),
        (
            &["--job", "none.csv"],
            1,
            "run: none.csv can't be read: No such file or directory (os error 2)\n",
        ),
        (
            &["--wall", "roof", "--poses", "3"],
            1,
            "run: no wall \"roof\" was seen twice; there are: south wall, east wall, north wall, alcove right, alcove wall, \
             alcove left, cut corner, west wall, floor\n",
        ),
    ] {
        let output = folder.run(words);
        assert_eq!(text(&output.stderr), says);
        assert_eq!(output.status.code(), Some(status));
    }
    assert!(!folder.0.join("room.svg").exists());
}
