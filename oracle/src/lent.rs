//! Lends the same memory to a call of the library and to the model's, and compares what both answer and leave.
//!
//! All slices of a call lie in one memory, with cells between them and around them that nobody was lent. Whatever is not
//! an output that the model has written must keep its bits: the gaps and the slices that are read always, and everything
//! where the call is refused or finds nothing. What is written must have the model's bits, or be a NaN where it is one.

use crate::draws;
use crate::generator::Generator;
use crate::patterns::same;
use crate::report::Report;
use std::ops::Range;

/// A call: the slices of numbers in the order of the interface, single numbers behind a pointer being slices of one; and
/// the word `found`, which a call without one leaves. It answers 0 or the number of a reason.
pub type Call<'a, const N: usize> = dyn Fn([&mut [f64]; N], &mut u32) -> u32 + 'a;

/// What lies between the slices: NaNs with payloads and numbers, which a stray write would hardly leave as they are.
const GAP: [u64; 4] = [
    0x7FF0_0000_0000_0D1E,
    0xFFF8_0000_0000_0B0B,
    0x8000_0000_0000_0000,
    0x4010_0000_0000_0001,
];

/// `found` before a call: neither found nor not.
const NEITHER: u32 = 0xA5A5_A5A5;

/// Numbers of a slice that a description has; of longer slices it has the length.
const DESCRIBED: usize = 40;

/// A comparison of one call.
pub struct Comparison<'a, const N: usize> {
    name: &'static str,
    /// The slices' names, for descriptions.
    slices: [&'static str; N],
    /// The slice that the call writes.
    written: usize,
    library: &'a Call<'a, N>,
    model: &'a Call<'a, N>,
    before: Vec<f64>,
    of_library: Vec<f64>,
    of_model: Vec<f64>,
}

/// What a call answered and `found` after it.
#[derive(Clone, Copy, PartialEq)]
struct Answer {
    number: u32,
    found: u32,
}

impl Answer {
    /// Whether the call wrote its output.
    fn wrote(self) -> bool {
        self.number == 0 && self.found != 0
    }
}

impl std::fmt::Display for Answer {
    fn fmt(&self, f: &mut std::fmt::Formatter<'_>) -> std::fmt::Result {
        match self.found {
            NEITHER => write!(f, "{}", self.number),
            found => write!(f, "{}, found {found}", self.number),
        }
    }
}

impl<'a, const N: usize> Comparison<'a, N> {
    /// The comparison of a call that writes slice number `written`.
    pub fn new(
        name: &'static str,
        slices: [&'static str; N],
        written: usize,
        library: &'a Call<'a, N>,
        model: &'a Call<'a, N>,
    ) -> Self {
        Comparison {
            name,
            slices,
            written,
            library,
            model,
            before: Vec::new(),
            of_library: Vec::new(),
            of_model: Vec::new(),
        }
    }

    /// Makes both calls on slices of these contents, what is written included, and counts the case.
    pub fn check(&mut self, contents: [&[f64]; N], report: &mut Report) {
        let lengths = contents.map(<[f64]>::len);
        lay_out(contents, &mut self.before);
        self.of_library.clone_from(&self.before);
        self.of_model.clone_from(&self.before);
        let by_library = made(self.library, &mut self.of_library, lengths);
        let by_model = made(self.model, &mut self.of_model, lengths);
        let output = if by_model.wrote() {
            place_of(self.written, lengths)
        } else {
            0..0
        };
        let differs = (0..self.before.len()).find(|&place| !self.agrees(place, &output));
        report.check(by_library == by_model && differs.is_none(), || {
            self.describe(contents, [by_library, by_model], differs)
        });
    }

    /// Makes both calls on slices of which one or more are empty, one short, one long or twice too long, where `right` are
    /// the lengths that they should have, or `None` for a single number. The contents are such that a call
    /// might be accepted, and such that it might be refused for another reason.
    pub fn check_lengths(
        &mut self,
        right: [Option<usize>; N],
        generator: &mut Generator,
        report: &mut Report,
    ) {
        for lengths in wrong_lengths(right) {
            let mut check = |mut contents: [Vec<f64>; N], generator: &mut Generator| {
                contents[self.written] = draws::old(lengths[self.written], generator);
                self.check(contents.each_ref().map(Vec::as_slice), report);
            };
            check(lengths.map(|length| vec![1.0; length]), generator);
            check(lengths.map(|length| vec![0.0; length]), generator);
            for _ in 0..8 {
                check(draws::slices(lengths, generator), generator);
            }
        }
    }

    /// Whether the library left a place as it should be.
    fn agrees(&self, place: usize, output: &Range<usize>) -> bool {
        if output.contains(&place) {
            same(self.of_library[place], self.of_model[place])
        } else {
            self.of_library[place].to_bits() == self.before[place].to_bits()
        }
    }

    fn describe(
        &self,
        contents: [&[f64]; N],
        [by_library, by_model]: [Answer; 2],
        differs: Option<usize>,
    ) -> String {
        let mut text = format!(
            "{}: library answers {by_library}, model {by_model}",
            self.name
        );
        if let Some(place) = differs {
            let lengths = contents.map(<[f64]>::len);
            let slice = (0..N).find(|&slice| place_of(slice, lengths).contains(&place));
            let place_in = match slice {
                Some(slice) => {
                    let at = place - place_of(slice, lengths).start;
                    format!("{}[{at}]", self.slices[slice])
                }
                None => "a cell that was not lent".to_string(),
            };
            let [before, library, model] = [&self.before, &self.of_library, &self.of_model]
                .map(|memory| memory[place].to_bits());
            text += &format!(
                "; {place_in} was {before:016X}, library {library:016X}, model {model:016X}"
            );
        }
        for (name, content) in self.slices.iter().zip(contents) {
            text += &format!("\n    {name}, {} numbers", content.len());
            if content.len() <= DESCRIBED {
                for number in content {
                    text += &format!(" {:016X}", number.to_bits());
                }
            }
        }
        text
    }
}

/// Fills a memory with the contents of slices, a gap before each and after the last.
fn lay_out<const N: usize>(contents: [&[f64]; N], memory: &mut Vec<f64>) {
    memory.clear();
    for content in contents {
        memory.extend(GAP.map(f64::from_bits));
        memory.extend(content);
    }
    memory.extend(GAP.map(f64::from_bits));
}

/// Where slice number `slice` lies in such a memory.
fn place_of<const N: usize>(slice: usize, lengths: [usize; N]) -> Range<usize> {
    let start = lengths[..slice].iter().sum::<usize>() + (slice + 1) * GAP.len();
    start..start + lengths[slice]
}

/// Makes a call on the slices of a memory.
fn made<const N: usize>(call: &Call<'_, N>, memory: &mut [f64], lengths: [usize; N]) -> Answer {
    let mut rest = memory;
    let slices = lengths.map(|length| {
        let (slice, after) = std::mem::take(&mut rest)[GAP.len()..].split_at_mut(length);
        rest = after;
        slice
    });
    let mut found = NEITHER;
    let number = call(slices, &mut found);
    Answer { number, found }
}

/// The answer of a call of the safe crate, as a number.
pub fn number(answer: Result<(), maghnelt::Refusal>) -> u32 {
    answer.map_or_else(maghnelt::Refusal::number, |()| 0)
}

/// Lengths of which at least one is not right: each slice alone, and any two, empty, one short, one long, twice too
/// long; then all of them one short and one long. A single number stays single.
fn wrong_lengths<const N: usize>(right: [Option<usize>; N]) -> Vec<[usize; N]> {
    let good = right.map(|length| length.unwrap_or(1));
    let with = |lengths: [usize; N], slice: usize| -> Vec<[usize; N]> {
        let Some(length) = right[slice] else {
            return Vec::new();
        };
        [0, length - 1, length + 1, 2 * length]
            .map(|wrong| {
                let mut lengths = lengths;
                lengths[slice] = wrong;
                lengths
            })
            .to_vec()
    };
    let mut wrong = Vec::new();
    for first in 0..N {
        for lengths in with(good, first) {
            wrong.push(lengths);
            for second in first + 1..N {
                wrong.extend(with(lengths, second));
            }
        }
    }
    wrong.push(right.map(|length| length.map_or(1, |length| length - 1)));
    wrong.push(right.map(|length| length.map_or(1, |length| length + 1)));
    wrong
}

#[cfg(test)]
mod tests {
    use super::*;

    /// A call that doubles one number, refuses two with 3, and finds nothing in a NaN.
    fn doubled([out, _]: [&mut [f64]; 2], found: &mut u32) -> u32 {
        if out.len() != 1 {
            return 3;
        }
        *found = u32::from(!out[0].is_nan());
        if *found == 1 {
            out[0] *= 2.0;
        }
        0
    }

    fn mismatches(library: &Call<'_, 2>) -> u64 {
        let mut report = Report::new("lent");
        let mut comparison = Comparison::new("doubled", ["out", "in"], 0, library, &doubled);
        let payload = f64::from_bits(0x7FF0_0000_0000_0001);
        for out in [&[][..], &[3.0], &[payload], &[payload, 1.0]] {
            comparison.check([out, &[payload, 1.0]], &mut report);
        }
        report.mismatches()
    }

    #[test]
    fn the_same_call_passes() {
        assert_eq!(mismatches(&doubled), 0);
    }

    #[test]
    fn another_number_or_answer_is_found() {
        assert_eq!(mismatches(&|_, _| 3), 2);
        assert_eq!(
            mismatches(&|[out, from], found| match doubled([out, from], found) {
                3 => 2,
                answer => answer,
            }),
            2
        );
        assert_eq!(mismatches(&|[out, _], _| (out.len() != 1).into()), 4);
    }

    #[test]
    fn a_write_where_nothing_is_found_is_seen_by_its_bits() {
        let quieted = |[out, from]: [&mut [f64]; 2], found: &mut u32| {
            let answer = doubled([out, from], found);
            if *found == 0 {
                out[0] = f64::NAN;
            }
            answer
        };
        assert_eq!(mismatches(&quieted), 1);
    }

    #[test]
    fn a_write_of_a_refused_call_is_found() {
        let early = |[out, from]: [&mut [f64]; 2], found: &mut u32| {
            if let [_, second] = out {
                *second = 0.0;
            }
            doubled([out, from], found)
        };
        assert_eq!(mismatches(&early), 1);
        let early = |[out, from]: [&mut [f64]; 2], found: &mut u32| {
            *found = 0;
            doubled([out, from], found)
        };
        assert_eq!(mismatches(&early), 2);
    }

    #[test]
    fn a_write_to_what_is_read_is_found() {
        let careless = |[out, from]: [&mut [f64]; 2], found: &mut u32| {
            from[0] = f64::NAN;
            doubled([out, from], found)
        };
        assert_eq!(mismatches(&careless), 4);
    }

    #[test]
    fn a_write_past_the_end_is_found() {
        // Only the memory of the comparison is written: the gap behind the slice.
        let past = |[out, from]: [&mut [f64]; 2], found: &mut u32| {
            let end = out.as_mut_ptr_range().end;
            unsafe { end.write(0.0) };
            doubled([out, from], found)
        };
        assert_eq!(mismatches(&past), 4);
    }

    #[test]
    fn lengths_that_are_wrong_are_wrong() {
        let wrong = wrong_lengths([Some(3), None, Some(4)]);
        assert!(wrong.iter().all(|&[a, b, c]| b == 1 && (a, c) != (3, 4)));
        for lengths in [[2, 1, 4], [4, 1, 4], [3, 1, 3], [3, 1, 5], [4, 1, 3]] {
            assert!(wrong.contains(&lengths), "{lengths:?}");
        }
    }
}
