//! Maps read through index lists, against the model.

use crate::called::{every_pair, Call, Comparison, Fault, Lent};
use crate::draws::old_words;
use crate::generator::Generator;
use crate::lent::number;
use crate::model::{blocks as model, LENGTH, MAP_WORD};
use crate::report::Report;
use maghnelt::{slices as library, MAX_WORDS, UNMAPPED};

type Case = Lent<0, 3>;

/// The places of the slices.
const MAP: usize = 0;
const LIST: usize = 1;
const OUT: usize = 2;

/// Compares the library.
pub fn run(generator: &mut Generator, count: u64, report: &mut Report) {
    let call = |[]: [&mut [f64]; 0], [map, list, out]: [&mut [u32]; 3]| {
        number(library::remap(map, list, out))
    };
    compare(&call, generator, count, report);
}

fn compare(call: &Call<'_, 0, 3>, generator: &mut Generator, count: u64, report: &mut Report) {
    let model = model::remap_call(model::remapped);
    let mut comparison = Comparison::new("remap", [], ["map", "list", "out"], call, &model);
    for map in lengths() {
        for list in lengths() {
            let case = case(map, list, generator);
            comparison.check(&case, report);
        }
    }
    for word in turning_words() {
        for place in [MAP, LIST] {
            let mut case = case(5, 5, generator);
            case.words[place][generator.below(5) as usize] = word;
            comparison.check(&case, report);
        }
    }
    for _ in 0..20 {
        every_pair(&faults(), accepted, generator, |case, _| {
            comparison.check(&case, report);
        });
    }
    let mut words = 0;
    while words < count {
        let mut case = accepted(generator);
        // Now and then a word of any kind, so that some calls are refused.
        if generator.below(4) == 0 {
            let slice = &mut case.words[generator.pick(&[MAP, LIST])];
            if !slice.is_empty() {
                let place = generator.below(slice.len() as u64) as usize;
                slice[place] = generator.bits() as u32;
            }
        }
        comparison.check(&case, report);
        words += 1 + case.words[LIST].len() as u64 / 8;
    }
}

/// What a call can be refused for.
fn faults() -> Vec<Fault<Case>> {
    vec![
        Fault::new(LENGTH, |case: &mut Case, generator| {
            too_long(&mut case.words[MAP], generator);
        }),
        Fault::new(LENGTH, |case: &mut Case, generator| {
            too_long(&mut case.words[LIST], generator);
            case.words[OUT] = old_words(case.words[LIST].len(), generator);
        }),
        Fault::new(LENGTH, |case: &mut Case, generator| {
            let right = case.words[LIST].len();
            let wrong = [0, right + 1, 2 * right + 2, right.saturating_sub(1)];
            let wrong: Vec<usize> = wrong.into_iter().filter(|&k| k != right).collect();
            case.words[OUT] = old_words(generator.pick(&wrong), generator);
        }),
        Fault::new(MAP_WORD, |case: &mut Case, generator| {
            bad_word(&mut case.words[MAP], generator);
        }),
        Fault::new(MAP_WORD, |case: &mut Case, generator| {
            let same = case.words[OUT].len() == case.words[LIST].len();
            bad_word(&mut case.words[LIST], generator);
            if same {
                case.words[OUT] = old_words(case.words[LIST].len(), generator);
            }
        }),
        // At the end of the longest map that is allowed.
        Fault::new(MAP_WORD, |case: &mut Case, _| {
            let map = &mut case.words[MAP];
            map.resize(map.len().max(MAX_WORDS), 0);
            map[MAX_WORDS - 1] = UNMAPPED + 1;
        }),
    ]
}

fn too_long(slice: &mut Vec<u32>, generator: &mut Generator) {
    slice.resize(MAX_WORDS + generator.pick(&[1, 2, MAX_WORDS]), 0);
}

/// Puts a bad word somewhere in a list, which gets one if it has none.
fn bad_word(slice: &mut Vec<u32>, generator: &mut Generator) {
    let word = match generator.below(3) {
        0 => UNMAPPED + 1,
        1 => generator.pick(&[
            UNMAPPED + UNMAPPED / 2,
            2 * UNMAPPED,
            3 * UNMAPPED,
            u32::MAX,
        ]),
        _ => UNMAPPED + 1 + generator.below(u64::from(u32::MAX - UNMAPPED)) as u32,
    };
    if slice.is_empty() {
        slice.push(0);
    }
    let place = generator.below(slice.len() as u64) as usize;
    slice[place] = word;
}

/// Lengths at which something turns.
fn lengths() -> [usize; 7] {
    [0, 1, 2, 7, MAX_WORDS - 1, MAX_WORDS, MAX_WORDS + 1]
}

/// Every kind with low parts of every width, and their neighbours.
fn turning_words() -> impl Iterator<Item = u32> {
    let around = |word: u32| [word.wrapping_sub(1), word, word.wrapping_add(1)];
    let kinds = (0..4u32).flat_map(|kind| (0..31).map(move |bit| kind << 30 | (1u32 << bit) >> 1));
    kinds.flat_map(around)
}

/// A case that is accepted.
fn accepted(generator: &mut Generator) -> Case {
    let mut length = || match generator.below(8) {
        0 => generator.pick(&[0, 1, MAX_WORDS]),
        1 => generator.below(1 + MAX_WORDS as u64) as usize,
        _ => generator.below(12) as usize,
    };
    let (map, list) = (length(), length());
    case(map, list, generator)
}

/// A map of offsets and a list of places in it, some past its end, both with words that are unmapped.
fn case(map: usize, list: usize, generator: &mut Generator) -> Case {
    let offset = |generator: &mut Generator| match generator.below(5) {
        0 => UNMAPPED,
        1 => generator.below(u64::from(UNMAPPED)) as u32,
        _ => generator.below(1024) as u32,
    };
    let place = |generator: &mut Generator| match generator.below(8) {
        0 => UNMAPPED,
        1 => generator.below(u64::from(UNMAPPED)) as u32,
        2 => generator.pick(&[map, map + 1, map.saturating_sub(1)]) as u32,
        _ => generator.below(1 + map as u64) as u32,
    };
    Lent {
        numbers: [],
        words: [
            (0..map).map(|_| offset(generator)).collect(),
            (0..list).map(|_| place(generator)).collect(),
            old_words(list, generator),
        ],
    }
}

#[cfg(test)]
mod tests {
    use super::*;
    use crate::called::{answer, check_faults};
    use model::Word;

    fn mismatches(call: &Call<'_, 0, 3>) -> u64 {
        let mut report = Report::new("remap");
        compare(call, &mut Generator::new(1), 5_000, &mut report);
        report.mismatches()
    }

    fn with(remapped: fn(&[u32], u32) -> u32) -> u64 {
        mismatches(&model::remap_call(remapped))
    }

    fn right(map: &mut [u32], list: &mut [u32], out: &mut [u32]) -> u32 {
        model::remap_call(model::remapped)([], [map, list, out])
    }

    #[test]
    fn the_model_itself_passes() {
        assert_eq!(with(model::remapped), 0);
    }

    #[test]
    fn faults_are_refused_by_their_numbers() {
        check_faults(&faults(), accepted, |case| {
            answer(&model::remap_call(model::remapped), case)
        });
    }

    #[test]
    fn a_word_at_the_end_is_found() {
        assert!(
            with(|map, word| match Word::read(word) {
                Word::At(place) if place + 1 < map.len() => map[place],
                _ => UNMAPPED,
            }) > 0
        );
        assert!(
            with(|map, word| match Word::read(word) {
                Word::At(place) => map.get(place).or(map.last()).copied().unwrap_or(UNMAPPED),
                _ => UNMAPPED,
            }) > 0
        );
    }

    #[test]
    fn an_unmapped_word_that_is_read_is_found() {
        assert!(
            with(|map, word| map
                .get((word & (UNMAPPED - 1)) as usize)
                .copied()
                .unwrap_or(UNMAPPED))
                > 0
        );
    }

    #[test]
    fn lists_that_are_swapped_are_found() {
        assert!(
            mismatches(&|[], [map, list, out]| {
                if map.len() == list.len() {
                    right(list, map, out)
                } else {
                    right(map, list, out)
                }
            }) > 0
        );
    }

    #[test]
    fn tests_that_are_left_out_or_swapped_are_found() {
        // Only the list's words are looked at.
        assert!(
            mismatches(&|[], [map, list, out]| {
                let mut none: [u32; 0] = [];
                match right(&mut none, list, &mut vec![0; list.len()]) {
                    MAP_WORD => MAP_WORD,
                    _ => right(map, list, out),
                }
            }) > 0
        );
        // Words past the first that are bad pass.
        assert!(
            mismatches(&|[], [map, list, out]| match right(map, list, out) {
                MAP_WORD if !model::bad_word(&map[..1.min(map.len())]) => 0,
                answer => answer,
            }) > 0
        );
    }

    #[test]
    fn a_write_of_a_refused_call_is_found() {
        assert!(
            mismatches(&|[], [map, list, out]| {
                let answer = right(map, list, out);
                if answer == MAP_WORD && !out.is_empty() {
                    out[0] = 0;
                }
                answer
            }) > 0
        );
    }
}
