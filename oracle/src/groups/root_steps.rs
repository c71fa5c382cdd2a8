//! How far the guess from which a square root is settled lies from the root: the number of correction steps.
//!
//! A guess depends on its operand's leading 32 bits and rises with the rest, as the root does. So for each leading part
//! both ends of the rest bound every operand between them. With a count of 3 * 2^30 or more every leading part is taken.

use crate::generator::Generator;
use crate::probe;
use crate::report::Report;

/// The bits of an operand below its leading 32.
const REST: u32 = 22;

/// The leading parts of operands of 53 and 54 bits.
const FIRST: u64 = 1 << 30;
const END: u64 = 1 << 32;

/// Measures the library.
pub fn run(_: &mut Generator, count: u64, report: &mut Report) {
    compare(probe::root_guess, count, report);
}

/// The least and the most operand of each leading part, or of so many of them.
fn operands(count: u64) -> impl Iterator<Item = (u64, u64)> {
    let stride = ((END - FIRST) / count.max(1)).max(1);
    (FIRST..END).step_by(stride as usize).map(|leading| {
        let least = leading << REST;
        (least, least + ((1 << REST) - 1))
    })
}

fn compare(guess: impl Fn(u64) -> u64, count: u64, report: &mut Report) {
    for (least, most) in operands(count) {
        let down = guess(most).saturating_sub(least.isqrt());
        let up = most.isqrt().saturating_sub(guess(least));
        report.check(down <= 1 && up <= 1, || {
            format!("operands from {least:X}: up to {down} steps down, {up} up")
        });
    }
}

#[cfg(test)]
mod tests {
    use super::*;

    fn mismatches(guess: impl Fn(u64) -> u64) -> u64 {
        let mut report = Report::new("root_steps");
        compare(guess, 1000, &mut report);
        report.mismatches()
    }

    #[test]
    fn the_root_itself_passes() {
        assert_eq!(mismatches(u64::isqrt), 0);
    }

    #[test]
    fn a_guess_that_is_two_off_is_found() {
        assert!(mismatches(|n| n.isqrt() + 2) > 0);
        assert!(mismatches(|n| n.isqrt() - 2) > 0);
    }
}
