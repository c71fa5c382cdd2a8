//! What a user may ask for.

use crate::equations::Way;
use crate::height::Height;
use crate::job::MAX_POSES;

/// The text of `--help`.
pub const HELP: &str = "\
./run scans a room on a walk, adjusts the poses until its walls are thin, and tells the story of the wall.

options
  --seed N          another room's noise, walk and odometry (60)
  --poses N         how many poses the walk has, 3 to 170 (30)
  --job FILE        a job of one's own in place of the room; README.md describes the file
  --bundle          adjusts point by point in place of moments; no surface may then have more than 65536 points
  --lock-height     keeps each pose's height, with 5 unknowns a pose; the room is then scanned from a trolley of known height
  --wall NAME       the surface whose story is told (the alcove wall, or a job's first surface)
  --picture FILE    where the picture goes (target/room.svg)
  --write-job FILE  writes the room's job as a file and stops
  --help            this text
";

/// What a run does.
#[derive(Clone, Debug, PartialEq, Eq)]
pub struct Options {
    /// The seed of the room.
    pub seed: u64,
    /// The number of poses in the room.
    pub poses: usize,
    /// A job file in place of the room.
    pub job: Option<String>,
    /// How the planes' equations are made.
    pub way: Way,
    /// Whether the poses keep their heights.
    pub height: Height,
    /// The surface of the story.
    pub wall: Option<String>,
    /// Where the picture goes, if somewhere else.
    pub picture: Option<String>,
    /// Where the room's job is written.
    pub write_job: Option<String>,
    /// Whether the text of help is all that is wanted.
    pub help: bool,
}

impl Options {
    /// The options of a command line.
    ///
    /// # Errors
    ///
    /// A sentence on the first word that can't be taken.
    pub fn read(words: impl IntoIterator<Item = String>) -> Result<Options, String> {
        let mut options = Options {
            seed: 60,
            poses: 30,
            job: None,
            way: Way::Moments,
            height: Height::Free,
            wall: None,
            picture: None,
            write_job: None,
            help: false,
        };
        let mut room_asked = None;
        let mut words = words.into_iter();
        while let Some(option) = words.next() {
            let mut value = || words.next().ok_or(format!("{option} needs a value"));
            match option.as_str() {
                "--seed" => {
                    options.seed = whole(&option, &value()?)?;
                    room_asked = Some(option);
                }
                "--poses" => {
                    let poses: u64 = whole(&option, &value()?)?;
                    if !(3..=MAX_POSES as u64).contains(&poses) {
                        return Err(format!("--poses takes 3 to {MAX_POSES}, not {poses}"));
                    }
                    options.poses = poses as usize;
                    room_asked = Some(option);
                }
                "--job" => options.job = Some(value()?),
                "--bundle" => options.way = Way::Points,
                "--lock-height" => options.height = Height::Locked,
                "--wall" => options.wall = Some(value()?),
                "--picture" => options.picture = Some(value()?),
                "--write-job" => options.write_job = Some(value()?),
                "--help" | "-h" => options.help = true,
                _ => return Err(format!("{option:?} is no option; ./run --help lists them")),
            }
        }
        options.checked(room_asked)
    }

    /// An option that would count for nothing is a mistake to hear of. Locked heights count everywhere: a job that is written
    /// is then the trolley's.
    fn checked(self, room_asked: Option<String>) -> Result<Options, String> {
        match (&self.job, room_asked, &self.write_job) {
            (Some(_), Some(option), _) => {
                Err(format!("{option} makes a room, and --job brings its own"))
            }
            (Some(_), _, Some(_)) => {
                Err("--write-job writes the room's job, and --job brings its own".into())
            }
            (_, _, Some(_)) if self.way == Way::Points => {
                Err("--write-job adjusts nothing, neither by --bundle nor by moments".into())
            }
            _ => Ok(self),
        }
    }
}

fn whole(option: &str, value: &str) -> Result<u64, String> {
    value
        .parse()
        .map_err(|_| format!("{option} takes a whole number, not {value:?}"))
}

#[cfg(test)]
mod tests {
    use super::*;

    fn read(line: &str) -> Result<Options, String> {
        Options::read(line.split_whitespace().map(str::to_owned))
    }

    #[test]
    fn what_is_asked_for_is_done() {
        let options = read("--seed 7 --poses 12 --picture a.svg").unwrap();
        assert_eq!((options.seed, options.poses), (7, 12));
        assert_eq!(options.picture.as_deref(), Some("a.svg"));
        assert_eq!(read("").unwrap().poses, 30);
        assert_eq!(read("").unwrap().way, Way::Moments);
        assert_eq!(read("--job a --bundle").unwrap().way, Way::Points);
        assert_eq!(read("").unwrap().height, Height::Free);
        for with in ["--job a", "--bundle", "--seed 7", "--write-job a"] {
            let options = read(&format!("{with} --lock-height")).unwrap();
            assert_eq!(options.height, Height::Locked);
        }
        assert!(read("--help").unwrap().help);
    }

    #[test]
    fn mistakes_are_named() {
        for (line, says) in [
            ("--poses many", "--poses takes a whole number, not \"many\""),
            ("--poses 2", "--poses takes 3 to 170, not 2"),
            ("--poses 171", "--poses takes 3 to 170, not 171"),
            ("--seed -1", "--seed takes a whole number, not \"-1\""),
            ("--seed", "--seed needs a value"),
            (
                "--colour",
                "\"--colour\" is no option; ./run --help lists them",
            ),
            (
                "--job a --seed 1",
                "--seed makes a room, and --job brings its own",
            ),
            (
                "--bundle --write-job a",
                "--write-job adjusts nothing, neither by --bundle nor by moments",
            ),
        ] {
            assert_eq!(read(line), Err(says.to_owned()));
        }
    }
}
