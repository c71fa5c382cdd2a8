//! Counts the cases of a group and prints those in which library and Rust differ.

/// Mismatches of a group that are printed; the others are counted.
const PRINTED: u64 = 20;

/// What a group found.
pub struct Report {
    group: &'static str,
    cases: u64,
    mismatches: u64,
}

impl Report {
    /// The report of a group that has not begun.
    pub fn new(group: &'static str) -> Self {
        Report {
            group,
            cases: 0,
            mismatches: 0,
        }
    }

    /// The group's name.
    pub fn group(&self) -> &'static str {
        self.group
    }

    /// Counts a case. One that does not agree is described and printed, unless enough were.
    pub fn check(&mut self, agrees: bool, describe: impl FnOnce() -> String) {
        self.cases += 1;
        if !agrees {
            self.mismatches += 1;
            if self.mismatches <= PRINTED {
                println!("{}: {}", self.group, describe());
            }
        }
    }

    /// The cases so far.
    pub fn cases(&self) -> u64 {
        self.cases
    }

    /// The mismatches so far.
    pub fn mismatches(&self) -> u64 {
        self.mismatches
    }

    /// Prints the group's line.
    pub fn print(&self) {
        println!(
            "{:30} {:>10} cases, {} mismatches",
            self.group, self.cases, self.mismatches
        );
    }
}
