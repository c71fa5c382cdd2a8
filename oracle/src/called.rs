//! Lends the same memory to a call of the library and to the model's, as `lent` does, for calls on slices of numbers and of
//! words of which they may write several, or parts.
//!
//! The model writes every NaN that it works out as one pattern, so that a NaN that was left is told from one that was
//! written: where the library's memory has not the model's bits, the model must have written that pattern and the library a
//! NaN. So whatever the model leaves must keep its bits, the gaps between the slices included.

use crate::generator::Generator;
use crate::model::{written, WORKED_OUT_NAN};
use crate::report::Report;
use std::ops::Range;

/// A call: slices of numbers and slices of words in the order of the interface, single ones being slices of one. It answers
/// 0 or the number of a reason.
pub type Call<'a, const N: usize, const W: usize> =
    dyn Fn([&mut [f64]; N], [&mut [u32]; W]) -> u32 + 'a;

/// What lies between the slices: NaNs with payloads and numbers, which a stray write would hardly leave as they are.
const GAP: [u64; 4] = [
    0x7FF0_0000_0000_0D1E,
    0xFFF8_0000_0000_0B0B,
    0x8000_0000_0000_0000,
    0x4010_0000_0000_0001,
];

/// The same between slices of words.
const WORD_GAP: [u32; 2] = [0xA5A5_A5A5, 0x5A5A_5A5A];

/// Numbers of a slice that a description has; of longer slices it has the length.
const DESCRIBED: usize = 40;

/// What a call is lent.
#[derive(Clone)]
pub struct Lent<const N: usize, const W: usize> {
    /// The slices of numbers.
    pub numbers: [Vec<f64>; N],
    /// The slices of words.
    pub words: [Vec<u32>; W],
}

/// A comparison of one call.
pub struct Comparison<'a, const N: usize, const W: usize> {
    name: &'static str,
    /// The slices' names, for descriptions.
    numbers: [&'static str; N],
    words: [&'static str; W],
    library: &'a Call<'a, N, W>,
    model: &'a Call<'a, N, W>,
    before: Memory,
    of_library: Memory,
    of_model: Memory,
}

#[derive(Clone, Default)]
struct Memory {
    numbers: Vec<f64>,
    words: Vec<u32>,
}

impl<'a, const N: usize, const W: usize> Comparison<'a, N, W> {
    /// The comparison of a call whose slices have these names.
    pub fn new(
        name: &'static str,
        numbers: [&'static str; N],
        words: [&'static str; W],
        library: &'a Call<'a, N, W>,
        model: &'a Call<'a, N, W>,
    ) -> Self {
        Comparison {
            name,
            numbers,
            words,
            library,
            model,
            before: Memory::default(),
            of_library: Memory::default(),
            of_model: Memory::default(),
        }
    }

    /// Makes both calls on slices of these contents, what is written included, and counts the case. The model's answer.
    pub fn check(&mut self, lent: &Lent<N, W>, report: &mut Report) -> u32 {
        lay_out(
            &lent.numbers,
            GAP.map(f64::from_bits),
            &mut self.before.numbers,
        );
        lay_out(&lent.words, WORD_GAP, &mut self.before.words);
        self.of_library.clone_from(&self.before);
        self.of_model.clone_from(&self.before);
        let by_library = made(self.library, &mut self.of_library, lent);
        let by_model = made(self.model, &mut self.of_model, lent);
        let agrees = by_library == by_model
            && self.of_library.words == self.of_model.words
            && self.differs().is_none();
        report.check(agrees, || self.describe(lent, [by_library, by_model]));
        by_model
    }

    /// A place at which the numbers are not as they should be.
    fn differs(&self) -> Option<usize> {
        let pairs = self.of_library.numbers.iter().zip(&self.of_model.numbers);
        pairs.into_iter().position(|(library, model)| {
            library.to_bits() != model.to_bits()
                && !(model.to_bits() == WORKED_OUT_NAN && library.is_nan())
        })
    }

    fn describe(&self, lent: &Lent<N, W>, [by_library, by_model]: [u32; 2]) -> String {
        let mut text = format!(
            "{}: library answers {by_library}, model {by_model}",
            self.name
        );
        if let Some(place) = self.differs() {
            let name = name_of(place, &lent.numbers, GAP.len(), &self.numbers);
            let [before, library, model] = [&self.before, &self.of_library, &self.of_model]
                .map(|memory| memory.numbers[place].to_bits());
            text +=
                &format!("; {name} was {before:016X}, library {library:016X}, model {model:016X}");
        }
        let of_words = self.of_library.words.iter().zip(&self.of_model.words);
        if let Some(place) = of_words.into_iter().position(|(a, b)| a != b) {
            let name = name_of(place, &lent.words, WORD_GAP.len(), &self.words);
            let [before, library, model] =
                [&self.before, &self.of_library, &self.of_model].map(|memory| memory.words[place]);
            text += &format!("; {name} was {before:X}, library {library:X}, model {model:X}");
        }
        for (name, content) in self.words.iter().zip(&lent.words) {
            text += &format!("\n    {name}, {} words", content.len());
            if content.len() <= DESCRIBED {
                for word in content {
                    text += &format!(" {word:X}");
                }
            }
        }
        for (name, content) in self.numbers.iter().zip(&lent.numbers) {
            text += &format!("\n    {name}, {} numbers", content.len());
            if content.len() <= DESCRIBED {
                for number in content {
                    text += &format!(" {:016X}", number.to_bits());
                }
            }
        }
        text
    }
}

/// Fills a memory with the contents of slices, a gap before each and after the last.
fn lay_out<T: Copy, const G: usize>(contents: &[Vec<T>], gap: [T; G], memory: &mut Vec<T>) {
    memory.clear();
    for content in contents {
        memory.extend(gap);
        memory.extend(content);
    }
    memory.extend(gap);
}

/// Where slice number `slice` lies in such a memory.
fn place_of<T>(slice: usize, contents: &[Vec<T>], gap: usize) -> Range<usize> {
    let start = contents[..slice].iter().map(Vec::len).sum::<usize>() + (slice + 1) * gap;
    start..start + contents[slice].len()
}

/// The name of a place in such a memory.
fn name_of<T>(place: usize, contents: &[Vec<T>], gap: usize, names: &[&str]) -> String {
    let slice = (0..contents.len()).find(|&k| place_of(k, contents, gap).contains(&place));
    match slice {
        Some(slice) => {
            let at = place - place_of(slice, contents, gap).start;
            format!("{}[{at}]", names[slice])
        }
        None => "a cell that was not lent".to_string(),
    }
}

/// Makes a call on the slices of a memory.
fn made<const N: usize, const W: usize>(
    call: &Call<'_, N, W>,
    memory: &mut Memory,
    lent: &Lent<N, W>,
) -> u32 {
    let numbers = cut(&mut memory.numbers, &lent.numbers, GAP.len());
    let words = cut(&mut memory.words, &lent.words, WORD_GAP.len());
    call(numbers, words)
}

/// The slices that lie in a memory.
fn cut<'a, T, const K: usize>(
    memory: &'a mut [T],
    contents: &[Vec<T>; K],
    gap: usize,
) -> [&'a mut [T]; K] {
    let mut rest = memory;
    contents.each_ref().map(|content| {
        let (slice, after) = std::mem::take(&mut rest)[gap..].split_at_mut(content.len());
        rest = after;
        slice
    })
}

/// Makes the NaNs that an accepted call of the library has left in its outputs those that the model writes, so that the call
/// can be the model of another in which one NaN counts as another. Hands its answer on.
pub fn with_the_models_nans<const K: usize>(answer: u32, outputs: [&mut [f64]; K]) -> u32 {
    if answer == 0 {
        for number in outputs.into_iter().flatten() {
            *number = written(*number);
        }
    }
    answer
}

/// Something that a call is refused for, made in a case that would be accepted.
pub struct Fault<Case> {
    /// The number of the reason.
    pub number: u32,
    make: Box<dyn Fn(&mut Case, &mut Generator)>,
}

impl<Case: 'static> Fault<Case> {
    /// The fault that `make` makes.
    pub fn new(number: u32, make: impl Fn(&mut Case, &mut Generator) + 'static) -> Self {
        Fault {
            number,
            make: Box::new(make),
        }
    }

    /// Makes it.
    pub fn make(&self, case: &mut Case, generator: &mut Generator) {
        (self.make)(case, generator);
    }

    /// The same fault in a part of a larger case.
    pub fn within<Whole: 'static>(self, part: fn(&mut Whole) -> &mut Case) -> Fault<Whole> {
        Fault::new(self.number, move |whole, generator| {
            self.make(part(whole), generator);
        })
    }
}

/// Goes through each fault alone, a few times, every time in a case of its own.
pub fn each_alone<Case: 'static>(
    faults: &[Fault<Case>],
    accepted: impl Fn(&mut Generator) -> Case,
    generator: &mut Generator,
    mut check: impl FnMut(Case),
) {
    for fault in faults.iter().flat_map(|fault| [fault; 5]) {
        let mut case = accepted(generator);
        fault.make(&mut case, generator);
        check(case);
    }
}

/// Goes through every two faults in both orders, and each twice, every time in a case of its own; `check` gets the case and
/// the numbers of both.
pub fn every_pair<Case: 'static>(
    faults: &[Fault<Case>],
    accepted: impl Fn(&mut Generator) -> Case,
    generator: &mut Generator,
    mut check: impl FnMut(Case, [u32; 2]),
) {
    for first in faults {
        for second in faults {
            let mut case = accepted(generator);
            first.make(&mut case, generator);
            second.make(&mut case, generator);
            check(case, [first.number, second.number]);
        }
    }
}

/// Each fault alone has to be refused by its own number, and two of them by one of both; `answer` is what the model answers.
/// For the groups' tests.
#[cfg(test)]
pub fn check_faults<Case: 'static>(
    faults: &[Fault<Case>],
    accepted: impl Fn(&mut Generator) -> Case,
    answer: impl Fn(Case) -> u32,
) {
    let mut generator = Generator::new(1);
    let generator = &mut generator;
    for _ in 0..20 {
        assert_eq!(answer(accepted(generator)), 0);
    }
    for (k, fault) in faults.iter().enumerate() {
        for _ in 0..3 {
            let mut case = accepted(generator);
            fault.make(&mut case, generator);
            assert_eq!(answer(case), fault.number, "fault {k}");
        }
    }
    every_pair(faults, accepted, generator, |case, both| {
        let number = answer(case);
        assert!(both.contains(&number), "{number} of {both:?}");
    });
}

/// What a wrong function answers that accepts slices of wrong lengths, to which it could not write. For the groups' tests.
#[cfg(test)]
pub const ACCEPTED: u32 = u32::MAX;

/// What a call answers on a copy of what it is lent. For the groups' tests.
#[cfg(test)]
pub fn answer<const N: usize, const W: usize>(call: &Call<'_, N, W>, mut lent: Lent<N, W>) -> u32 {
    call(
        lent.numbers.each_mut().map(Vec::as_mut_slice),
        lent.words.each_mut().map(Vec::as_mut_slice),
    )
}

#[cfg(test)]
mod tests {
    use super::*;

    const PAYLOAD: u64 = 0x7FF0_0000_0000_0001;

    /// A call that doubles the numbers behind the first and refuses, by the word, to do so.
    fn doubled([out]: [&mut [f64]; 1], [word]: [&mut [u32]; 1]) -> u32 {
        if word[0] == 0 {
            for number in &mut out[1..] {
                *number = crate::model::written(*number * 2.0);
            }
            word[0] = 1;
            return 0;
        }
        word[0]
    }

    fn mismatches(library: &Call<'_, 1, 1>) -> u64 {
        let mut report = Report::new("called");
        let mut comparison = Comparison::new("doubled", ["out"], ["word"], library, &doubled);
        for word in [0, 3] {
            let lent = Lent {
                numbers: [vec![f64::from_bits(PAYLOAD), f64::from_bits(PAYLOAD), 3.0]],
                words: [vec![word]],
            };
            assert_eq!(comparison.check(&lent, &mut report), word);
        }
        report.mismatches()
    }

    #[test]
    fn the_same_call_passes_with_any_nan() {
        assert_eq!(mismatches(&doubled), 0);
        assert_eq!(
            mismatches(&|[out], [word]| {
                let answer = doubled([&mut *out], [word]);
                if answer == 0 {
                    out[1] = -f64::NAN;
                }
                answer
            }),
            0
        );
    }

    #[test]
    fn a_nan_that_should_have_been_left_is_found() {
        assert_eq!(
            mismatches(&|[out], [word]| {
                out[0] = f64::NAN;
                doubled([out], [word])
            }),
            2
        );
    }

    #[test]
    fn another_answer_number_or_word_is_found() {
        assert_eq!(mismatches(&|_, [word]| word[0]), 1);
        assert_eq!(
            mismatches(&|[out], [word]| doubled([out], [word]).min(2)),
            1
        );
        assert_eq!(
            mismatches(&|[out], [word]| {
                let answer = doubled([out], [&mut *word]);
                word[0] = 7;
                answer
            }),
            2
        );
    }

    #[test]
    fn a_write_past_the_end_is_found() {
        // Only the memory of the comparison is written: the gaps behind the slices.
        assert_eq!(
            mismatches(&|[out], [word]| {
                unsafe { out.as_mut_ptr_range().end.write(0.0) };
                doubled([out], [word])
            }),
            2
        );
        assert_eq!(
            mismatches(&|[out], [word]| {
                unsafe { word.as_mut_ptr_range().end.write(0) };
                doubled([out], [word])
            }),
            2
        );
    }
}
