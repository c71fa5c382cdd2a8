//! Moment lists written to cards and cards read, against plain Rust that makes the same tests, and against memcpy, which
//! moves as many numbers and leaves them in their order.

use crate::harness::measure_on;
use maghnelt::{slices, MAX_RECORDS, MOMENTS};
use oracle::draws::within;
use oracle::generator::Generator;
use std::fmt::Debug;
use std::hint::black_box;

/// Records that a batch of short lists goes through.
const RECORDS: usize = 256;

/// Prints the rows of the cards.
pub fn measure_all() {
    let mut generator = Generator::named(754, "cards");
    for (case, records) in [
        ("8 records", 8),
        ("4,096 records", 4096),
        ("65,536 records", MAX_RECORDS),
    ] {
        let mut list = || {
            (0..records * MOMENTS)
                .map(|_| within(-1.0, 1.0, &mut generator))
                .collect()
        };
        let lists: Vec<Vec<f64>> = (0..(RECORDS / records).max(1)).map(|_| list()).collect();
        let (write, read) = (slices::card_write, slices::card_read);
        assert_same(&lists, write, plain::write);
        assert_same(&lists, read, plain::read);
        measure("card_write", case, &lists, write, plain::write);
        measure("card_read", case, &lists, read, plain::read);
        let case = format!("{case}, memcpy of the list");
        measure("card_write", &case, &lists, write, plain::copy);
        measure("card_read", &case, &lists, read, plain::copy);
    }
}

/// No list has an infinity, so that a number that is left as it was shows.
fn unwritten(lists: &[Vec<f64>]) -> Vec<f64> {
    vec![f64::INFINITY; lists[0].len()]
}

/// Two calls have to accept the lists and to write the same.
fn assert_same<E: Debug, F: Debug>(
    lists: &[Vec<f64>],
    library: impl Fn(&[f64], &mut [f64]) -> Result<(), E>,
    rust: impl Fn(&[f64], &mut [f64]) -> Result<(), F>,
) {
    for list in lists {
        let (mut by_library, mut by_rust) = (unwritten(lists), unwritten(lists));
        library(list, &mut by_library).expect("whole records");
        rust(list, &mut by_rust).expect("whole records");
        assert_eq!(by_library, by_rust);
    }
}

fn measure<E, F>(
    function: &str,
    case: &str,
    lists: &[Vec<f64>],
    library: impl Fn(&[f64], &mut [f64]) -> Result<(), E>,
    rust: impl Fn(&[f64], &mut [f64]) -> Result<(), F>,
) {
    measure_on(
        function,
        case,
        lists.len(),
        &mut unwritten(lists),
        |out| {
            for list in black_box(lists) {
                _ = library(list, out);
                black_box(&mut *out);
            }
        },
        |out| {
            for list in black_box(lists) {
                _ = rust(list, out);
                black_box(&mut *out);
            }
        },
    );
}

/// The same in plain Rust, called as the library's functions are. An error is the number of the reason to refuse.
///
/// Groups are arrays, so that no index is tested and the compiler unrolls both loops. The inner loop runs along what is
/// written: of the two orders this is the faster one.
mod plain {
    use maghnelt::{GROUP, MAX_RECORDS, MOMENTS};

    /// The numbers of a group.
    const WHOLE: usize = GROUP * MOMENTS;

    #[inline(never)]
    pub fn write(moments: &[f64], card: &mut [f64]) -> Result<(), u32> {
        test(moments, card)?;
        let (groups, rest) = moments.as_chunks::<WHOLE>();
        let (written, rest_written) = card.as_chunks_mut::<WHOLE>();
        for (group, card) in groups.iter().zip(written) {
            for f in 0..MOMENTS {
                for r in 0..GROUP {
                    card[GROUP * f + r] = group[MOMENTS * r + f];
                }
            }
        }
        rest_written.copy_from_slice(rest);
        Ok(())
    }

    #[inline(never)]
    pub fn read(card: &[f64], moments: &mut [f64]) -> Result<(), u32> {
        test(card, moments)?;
        let (groups, rest) = card.as_chunks::<WHOLE>();
        let (written, rest_written) = moments.as_chunks_mut::<WHOLE>();
        for (group, moments) in groups.iter().zip(written) {
            for r in 0..GROUP {
                for f in 0..MOMENTS {
                    moments[MOMENTS * r + f] = group[GROUP * f + r];
                }
            }
        }
        rest_written.copy_from_slice(rest);
        Ok(())
    }

    #[inline(never)]
    pub fn copy(from: &[f64], to: &mut [f64]) -> Result<(), u32> {
        test(from, to)?;
        to.copy_from_slice(from);
        Ok(())
    }

    /// Reason 3.
    #[inline(always)]
    fn test(from: &[f64], to: &[f64]) -> Result<(), u32> {
        let whole = from.len().is_multiple_of(MOMENTS);
        if !whole || from.len() / MOMENTS > MAX_RECORDS || to.len() != from.len() {
            return Err(3);
        }
        Ok(())
    }
}
