//! Moment lists written to cards and cards read, against the model; and one call after the other, which has to restore every
//! bit.

use crate::called::{Call, Comparison, Lent};
use crate::draws::{fill, old};
use crate::generator::Generator;
use crate::lent::number;
use crate::model::cards as model;
use crate::patterns::{self, INFINITY, SIGN};
use crate::report::Report;
use maghnelt::{slices as library, GROUP, MAX_RECORDS, MOMENTS};

/// What a call reads, and the first content of what it writes.
type Case = Lent<2, 0>;

/// Goes through cases, the random ones of so many records in all.
type Cases = fn(u64, &mut Generator, &mut dyn FnMut(&Case));

/// Numbers of records at which something turns.
const TURNING: [usize; 9] = [0, 1, 2, 7, 8, 9, 15, 16, 17];

/// Compares the library.
pub fn run(generator: &mut Generator, count: u64, report: &mut Report) {
    let write = |[moments, card]: [&mut [f64]; 2], []: [&mut [u32]; 0]| {
        number(library::card_write(moments, card))
    };
    let read = |[card, moments]: [&mut [f64]; 2], []: [&mut [u32]; 0]| {
        number(library::card_read(card, moments))
    };
    compare([&write, &read], each_case, generator, count, report);
}

/// Compares the two calls, `card_write` and `card_read`.
fn compare(
    [write, read]: [&Call<'_, 2, 0>; 2],
    cases: Cases,
    generator: &mut Generator,
    count: u64,
    report: &mut Report,
) {
    let model_write = model::write_call(model::refusal, model::place);
    let model_read = model::read_call(model::refusal, model::place);
    let names = ["moments", "card"];
    let mut written = Comparison::new("card_write", names, [], write, &model_write);
    let names = ["card", "moments"];
    let mut read_back = Comparison::new("card_read", names, [], read, &model_read);
    let turns = [in_turn(write, read), in_turn(read, write)];
    let [mut from_list, mut from_card] = round_trips(&turns);
    cases(count, generator, &mut |case| {
        if written.check(case, report) == 0 {
            from_list.check(case, report);
        }
        if read_back.check(case, report) == 0 {
            from_card.check(case, report);
        }
    });
}

/// One call, and then the other on what it wrote.
fn in_turn<'a>(
    first: &'a Call<'a, 2, 0>,
    second: &'a Call<'a, 2, 0>,
) -> impl Fn([&mut [f64]; 2], [&mut [u32]; 0]) -> u32 + 'a {
    move |[from, to], []| {
        let mut between = vec![f64::NAN; to.len()];
        match first([from, &mut between], []) {
            0 => second([&mut between, to], []),
            refusal => refusal,
        }
    }
}

/// The comparisons of both calls in turn, beginning with a list and with a card.
fn round_trips<'a>(
    [from_list, from_card]: &'a [impl Fn([&mut [f64]; 2], [&mut [u32]; 0]) -> u32; 2],
) -> [Comparison<'a, 2, 0>; 2] {
    let names = ["moments", "restored"];
    let list = "card_write and card_read";
    let card = "card_read and card_write";
    [
        Comparison::new(list, names, [], from_list, &model::restored),
        Comparison::new(card, ["card", "restored"], [], from_card, &model::restored),
    ]
}

fn each_case(count: u64, generator: &mut Generator, check: &mut dyn FnMut(&Case)) {
    each_short(count, generator, check);
    each_long(generator, check);
}

/// Cases of few records but for some of the random ones.
fn each_short(count: u64, generator: &mut Generator, check: &mut dyn FnMut(&Case)) {
    each_two_lengths(generator, check);
    each_content(generator, check);
    let mut records = 0;
    while records < count {
        let case = accepted(generator);
        check(&case);
        records += 1 + (case.numbers[0].len() / MOMENTS) as u64;
    }
}

/// Every two lengths at or beside the end of a record at which something turns.
fn each_two_lengths(generator: &mut Generator, check: &mut dyn FnMut(&Case)) {
    let around = |records: usize| [0, 1, 2].map(|k| (MOMENTS * records + k).saturating_sub(1));
    for read in TURNING.into_iter().flat_map(around) {
        for written in TURNING.into_iter().flat_map(around) {
            check(&case_of(old(read, generator), written, generator));
        }
    }
}

/// Lengths about the most records: of both slices, and of either one where the other has the most.
fn each_long(generator: &mut Generator, check: &mut dyn FnMut(&Case)) {
    let most = MOMENTS * MAX_RECORDS;
    let mut lengths = vec![[most; 2]];
    for other in [
        most - MOMENTS,
        most - 1,
        most + 1,
        most + MOMENTS,
        most + MOMENTS * GROUP,
    ] {
        lengths.extend([[other; 2], [most, other], [other, most]]);
    }
    lengths.extend([[2 * most; 2], [most, 0], [0, most]]);
    let many = [(); 2].map(|()| old(2 * most, generator));
    // One memory for all, since new pages cost more than the calls.
    let mut case = case_of(Vec::new(), 0, generator);
    for lengths in lengths {
        for (k, length) in lengths.into_iter().enumerate() {
            case.numbers[k].clear();
            case.numbers[k].extend_from_slice(&many[k][..length]);
        }
        check(&case);
    }
}

/// Lists of a few groups: numbers that all differ, NaNs that do, and every special pattern in every place.
fn each_content(generator: &mut Generator, check: &mut dyn FnMut(&Case)) {
    for length in (0..=4 * GROUP + 1).map(|records| MOMENTS * records) {
        let numbers = (0..length).map(|k| k as f64);
        check(&case_of(numbers.collect(), length, generator));
        let nans = (0..length as u64).map(|k| {
            let sign = if k % 3 == 0 { SIGN } else { 0 };
            f64::from_bits(sign | (INFINITY + 1 + k))
        });
        check(&case_of(nans.collect(), length, generator));
    }
    let special = patterns::special().into_iter().map(f64::from_bits);
    let special: Vec<f64> = special.collect();
    // A whole group, and a shorter one behind it.
    let length = MOMENTS * (2 * GROUP - 1);
    for shift in 0..special.len() {
        let numbers = special.iter().cycle().skip(shift).take(length);
        check(&case_of(numbers.copied().collect(), length, generator));
    }
}

/// What is read, and so many numbers of any first content to be written.
fn case_of(read: Vec<f64>, written: usize, generator: &mut Generator) -> Case {
    Lent {
        numbers: [read, old(written, generator)],
        words: [],
    }
}

/// A case that is accepted.
fn accepted(generator: &mut Generator) -> Case {
    let records = match generator.below(2048) {
        0 => generator.below(1 + MAX_RECORDS as u64),
        1..64 => generator.below(1000),
        _ => generator.below(5 * GROUP as u64),
    };
    let length = MOMENTS * records as usize;
    let mut read = old(length, generator);
    if generator.below(2) == 0 {
        fill(&mut read, generator);
    }
    case_of(read, length, generator)
}

#[cfg(test)]
mod tests {
    use super::*;
    use crate::patterns::{FRACTION, QUIET};
    use std::cell::RefCell;
    use std::collections::BTreeSet;
    use std::ops::Range;

    /// Where number f of record k goes on the card of n records.
    type Place = fn(usize, usize, usize) -> usize;
    /// What is made of a pattern.
    type Change = fn(u64) -> u64;
    /// Some of so many numbers.
    type Part = fn(usize) -> Range<usize>;
    /// Whether a call is refused for its lengths.
    type LengthTest = fn([usize; 2]) -> bool;

    /// The numbers of a whole group, and of the most records.
    const WHOLE: usize = GROUP * MOMENTS;
    const MOST: usize = MAX_RECORDS * MOMENTS;

    /// The right calls.
    const RIGHT: [&Call<'static, 2, 0>; 2] = [
        &|numbers, []| model::write_call(model::refusal, model::place)(numbers, []),
        &|numbers, []| model::read_call(model::refusal, model::place)(numbers, []),
    ];

    /// Cases that are accepted, of few records and of the most.
    const FEW: Cases = |_, generator, check| each_content(generator, check);
    const LONGEST: Cases =
        |_, generator, check| check(&case_of(old(MOST, generator), MOST, generator));

    fn mismatches(calls: [&Call<'_, 2, 0>; 2], cases: Cases) -> u64 {
        let mut report = Report::new("cards");
        compare(calls, cases, &mut Generator::new(1), 2_000, &mut report);
        report.mismatches()
    }

    /// Whether each call is found where something wrong is made of it.
    fn finds<Wrong: Fn([&mut [f64]; 2], [&mut [u32]; 0]) -> u32>(
        cases: Cases,
        wrong: impl Fn(&'static Call<'static, 2, 0>) -> Wrong,
    ) -> bool {
        let [write, read] = RIGHT.map(wrong);
        mismatches([&write, RIGHT[1]], cases) > 0 && mismatches([RIGHT[0], &read], cases) > 0
    }

    /// Whether other places are found, in each call and in both alike.
    fn finds_places(cases: Cases, place: impl Fn(usize, usize, usize) -> usize) -> bool {
        let write = model::write_call(model::refusal, &place);
        let read = model::read_call(model::refusal, &place);
        let wrong: [[&Call<'_, 2, 0>; 2]; 3] =
            [[&write, RIGHT[1]], [RIGHT[0], &read], [&write, &read]];
        wrong.iter().all(|calls| mismatches(*calls, cases) > 0)
    }

    /// A place where number f of record r of a whole group goes elsewhere in it; of a shorter one the right place.
    fn in_whole([records, record, f]: [usize; 3], place: impl Fn(usize, usize) -> usize) -> usize {
        let group = record / GROUP;
        if group < records / GROUP {
            WHOLE * group + place(f, record % GROUP)
        } else {
            model::place(records, record, f)
        }
    }

    /// The same of a shorter group, by its number of records too.
    fn in_shorter(
        [records, record, f]: [usize; 3],
        place: impl Fn(usize, usize, usize) -> usize,
    ) -> usize {
        let group = record / GROUP;
        if group < records / GROUP {
            model::place(records, record, f)
        } else {
            WHOLE * group + place(f, record % GROUP, records % GROUP)
        }
    }

    /// The right place, but record order for some records.
    fn left(left: bool, records: usize, record: usize, f: usize) -> usize {
        if left {
            MOMENTS * record + f
        } else {
            model::place(records, record, f)
        }
    }

    /// The place in groups of another size.
    fn in_groups_of(size: usize, records: usize, record: usize, f: usize) -> usize {
        let (group, r) = (record / size, record % size);
        if group < records / size {
            MOMENTS * size * group + size * f + r
        } else {
            MOMENTS * record + f
        }
    }

    /// Places that are wrong in whole groups.
    const IN_WHOLE: [(&str, Place); 11] = [
        ("r and f exchanged", |n, k, f| {
            in_whole([n, k, f], |f, r| GROUP * r + f)
        }),
        ("numbers a record's size apart", |n, k, f| {
            in_whole([n, k, f], |f, r| (MOMENTS * f + r) % WHOLE)
        }),
        ("the places of the other call", |n, k, f| {
            in_whole([n, k, f], |f, r| {
                let number = MOMENTS * r + f;
                MOMENTS * (number % GROUP) + number / GROUP
            })
        }),
        ("the counts alone first", |n, k, f| {
            in_whole([n, k, f], |f, r| match f {
                0 => r,
                _ => GROUP + (MOMENTS - 1) * r + f - 1,
            })
        }),
        ("records in falling order", |n, k, f| {
            in_whole([n, k, f], |f, r| GROUP * f + GROUP - 1 - r)
        }),
        ("numbers in falling order", |n, k, f| {
            in_whole([n, k, f], |f, r| GROUP * (MOMENTS - 1 - f) + r)
        }),
        ("groups in falling order", |n, k, f| {
            match n - k / GROUP * GROUP {
                0..GROUP => model::place(n, k, f),
                _ => WHOLE * (n / GROUP - 1 - k / GROUP) + GROUP * f + k % GROUP,
            }
        }),
        ("the first group alone", |n, k, f| left(k >= GROUP, n, k, f)),
        ("all but the first group", |n, k, f| {
            left(k < GROUP, n, k, f)
        }),
        ("a last group of eight left", |n, k, f| {
            left(k + GROUP >= n && n % GROUP == 0, n, k, f)
        }),
        ("the group before a shorter one left", |n, k, f| {
            left(k / GROUP + 1 == n / GROUP && n % GROUP != 0, n, k, f)
        }),
    ];

    /// Places that are wrong otherwise.
    const OTHERS: [(&str, Place); 11] = [
        ("record order", |n, k, f| left(true, n, k, f)),
        ("a shorter group by its own size", |n, k, f| {
            in_shorter([n, k, f], |f, r, records| records * f + r)
        }),
        ("a shorter group as a whole one", |n, k, f| {
            in_shorter([n, k, f], |f, r, records| {
                (GROUP * f + r) % (MOMENTS * records)
            })
        }),
        ("a shorter group of seven by its own size", |n, k, f| {
            in_shorter([n, k, f], |f, r, records| match records {
                7 => records * f + r,
                _ => MOMENTS * r + f,
            })
        }),
        ("the shorter group first", |n, k, f| match n % GROUP {
            shorter if k < shorter => MOMENTS * k + f,
            shorter => MOMENTS * shorter + model::place(n - shorter, k - shorter, f),
        }),
        ("groups of seven", |n, k, f| in_groups_of(7, n, k, f)),
        ("groups of nine", |n, k, f| in_groups_of(9, n, k, f)),
        ("groups of sixteen", |n, k, f| in_groups_of(16, n, k, f)),
        ("the whole list as one matrix", |n, k, f| n * f + k),
        ("the list's counts first", |n, k, f| match f {
            0 => k,
            _ => n + (MOMENTS - 1) * k + f - 1,
        }),
        ("places in a byte", |n, k, f| model::place(n, k, f) & 0xFF),
    ];

    /// Places that are wrong in long lists alone.
    const IN_LONG: [(&str, Place); 2] = [
        ("places in sixteen bits", |n, k, f| {
            model::place(n, k, f) & 0xFFFF
        }),
        ("the last group of the most records left", |n, k, f| {
            left(k + GROUP >= MAX_RECORDS, n, k, f)
        }),
    ];

    #[test]
    fn the_model_itself_passes() {
        assert_eq!(mismatches(RIGHT, each_case), 0);
        // What the wrong places are made of is right but for its one place.
        let right: [Place; 4] = [
            |n, k, f| in_whole([n, k, f], |f, r| GROUP * f + r),
            |n, k, f| in_shorter([n, k, f], |f, r, _| MOMENTS * r + f),
            |n, k, f| left(false, n, k, f),
            |n, k, f| in_groups_of(GROUP, n, k, f),
        ];
        let lists = || (0..50).flat_map(|n| (0..MOMENTS * n).map(move |at| (n, at)));
        for place in right {
            let same = |(n, at)| {
                let (k, f) = (at / MOMENTS, at % MOMENTS);
                place(n, k, f) == model::place(n, k, f)
            };
            assert!(lists().all(same));
        }
    }

    #[test]
    fn other_places_are_found() {
        for (name, place) in IN_WHOLE.into_iter().chain(OTHERS) {
            assert!(finds_places(FEW, place), "{name}");
        }
        for (name, place) in IN_LONG {
            assert!(finds_places(LONGEST, place), "{name}");
        }
    }

    #[test]
    fn places_that_are_swapped_are_found() {
        // Each place with the next one, and with that of the same record's next number.
        let next = (1..WHOLE).map(|place| [place - 1, place]);
        let number = (GROUP..WHOLE).map(|place| [place - GROUP, place]);
        for [a, b] in next.chain(number).chain([[0, WHOLE - 1]]) {
            let swapped = |n, k, f| {
                in_whole([n, k, f], |f, r| match GROUP * f + r {
                    place if place == a => b,
                    place if place == b => a,
                    place => place,
                })
            };
            assert!(finds_places(FEW, swapped), "{a} and {b}");
        }
    }

    #[test]
    fn calls_that_do_not_restore_are_found() {
        let found = |read: &Call<'_, 2, 0>| {
            let turns = [in_turn(RIGHT[0], read), in_turn(read, RIGHT[0])];
            round_trips(&turns).map(|mut comparison| {
                let mut report = Report::new("cards");
                each_content(&mut Generator::new(1), &mut |case| {
                    comparison.check(case, &mut report);
                });
                report.mismatches()
            })
        };
        assert_eq!(found(RIGHT[1]), [0, 0]);
        for (name, place) in IN_WHOLE.into_iter().chain(OTHERS) {
            let read = model::read_call(model::refusal, place);
            assert!(!found(&read).contains(&0), "{name}");
        }
    }

    /// A pattern, or another for a NaN.
    fn nan_to(other: u64, bits: u64) -> u64 {
        if f64::from_bits(bits).is_nan() {
            other
        } else {
            bits
        }
    }

    /// What a copy of numbers could make of patterns.
    const CHANGES: [(&str, Change); 12] = [
        ("NaNs made quiet", |bits| nan_to(bits | QUIET, bits)),
        ("NaNs made signalling", |bits| {
            nan_to(bits & !QUIET | 1, bits)
        }),
        ("one NaN", |bits| nan_to(INFINITY | QUIET, bits)),
        ("one NaN of each sign", |bits| {
            nan_to(bits & SIGN | INFINITY | QUIET, bits)
        }),
        ("NaNs without their signs", |bits| {
            nan_to(bits & !SIGN, bits)
        }),
        ("NaNs with a minus sign", |bits| nan_to(bits | SIGN, bits)),
        ("payloads of a float", |bits| {
            nan_to((bits | QUIET) & !(FRACTION >> 23), bits)
        }),
        ("+0 for -0", |bits| if bits == SIGN { 0 } else { bits }),
        ("0 for subnormals", |bits| match bits & INFINITY {
            0 => bits & SIGN,
            _ => bits,
        }),
        ("the largest number for infinity", |bits| {
            bits - u64::from(bits & !SIGN == INFINITY)
        }),
        ("rounded to a float", |bits| match f64::from_bits(bits) {
            number if number.is_nan() => bits,
            number => f64::from(number as f32).to_bits(),
        }),
        ("the last bit lost", |bits| bits & !1),
    ];

    /// The numbers of whole groups, and those behind them.
    const IN_GROUPS: Part = |length| 0..length / WHOLE * WHOLE;
    const BEHIND: Part = |length| length / WHOLE * WHOLE..length;

    #[test]
    fn numbers_that_are_not_copied_bit_for_bit_are_found() {
        for (name, change) in CHANGES {
            for part in [IN_GROUPS, BEHIND] {
                let found = finds(FEW, |right| {
                    move |[from, to]: [&mut [f64]; 2], []: [&mut [u32]; 0]| {
                        let answer = right([from, &mut *to], []);
                        let part = part(to.len());
                        for number in &mut to[part] {
                            *number = f64::from_bits(change(number.to_bits()));
                        }
                        answer
                    }
                });
                assert!(found, "{name}, {:?}", part(WHOLE + 1));
            }
        }
    }

    /// Numbers that a call could leave as they were.
    const UNWRITTEN: [(&str, Part); 6] = [
        ("the first number", |length| 0..length.min(1)),
        ("the last number", |length| length.saturating_sub(1)..length),
        ("the last numbers, as many as a record has", |length| {
            length.saturating_sub(MOMENTS)..length
        }),
        ("whole groups", IN_GROUPS),
        ("a shorter group", BEHIND),
        ("the last number of the first group", |length| {
            WHOLE.min(length).saturating_sub(1)..WHOLE.min(length)
        }),
    ];

    /// What is right, but some numbers are as they were.
    fn unwritten<'a>(
        right: &'a Call<'a, 2, 0>,
        places: impl Fn(usize) -> Vec<usize> + 'a,
    ) -> impl Fn([&mut [f64]; 2], [&mut [u32]; 0]) -> u32 + 'a {
        move |[from, to], []| {
            let before = to.to_vec();
            let answer = right([from, &mut *to], []);
            for place in places(to.len()) {
                to[place] = before[place];
            }
            answer
        }
    }

    #[test]
    fn numbers_that_are_not_written_are_found() {
        for (name, part) in UNWRITTEN {
            let found = finds(FEW, |right| {
                unwritten(right, move |length| part(length).collect())
            });
            assert!(found, "{name}");
        }
        // The last record, where it is on a card.
        let last = |length: usize| {
            let records = length / MOMENTS;
            let numbers = 0..if records == 0 { 0 } else { MOMENTS };
            numbers
                .map(|f| model::place(records, records - 1, f))
                .collect()
        };
        assert!(finds(FEW, |right| unwritten(right, last)));
        // All, where sixteen bits hold the number of records.
        let none = |length: usize| (length / MOMENTS % 0x1_0000 * MOMENTS..length).collect();
        assert!(finds(LONGEST, |right| unwritten(right, none)));
    }

    #[test]
    fn a_write_to_what_is_read_is_found() {
        assert!(finds(FEW, |right| {
            move |[from, to]: [&mut [f64]; 2], []: [&mut [u32]; 0]| {
                let answer = right([&mut *from, &mut *to], []);
                if answer == 0 {
                    from.copy_from_slice(to);
                }
                answer
            }
        }));
    }

    /// What reason 3 is about, part by part: no whole records, too many of them, and another length of what is written.
    fn lengths([read, written]: [usize; 2]) -> [bool; 3] {
        [read % MOMENTS != 0, read > MOST, written != read]
    }

    /// Whether 3 applies, by tests that are wrong in one place.
    const LENGTHS: [(&str, LengthTest); 16] = [
        ("any number of records", |both| {
            let [broken, _, other] = lengths(both);
            broken || other
        }),
        ("one record more", |[read, written]| {
            read % MOMENTS != 0 || read > MOST + MOMENTS || written != read
        }),
        ("the most records refused", |both| {
            lengths(both).contains(&true) || both[0] == MOST
        }),
        ("the most groups refused", |both| {
            lengths(both).contains(&true) || both[0] > MOST - WHOLE
        }),
        ("as many numbers as records", |both| {
            lengths(both).contains(&true) || both[0] > MAX_RECORDS
        }),
        ("no records refused", |both| {
            lengths(both).contains(&true) || both[0] == 0
        }),
        ("less than a group refused", |both| {
            lengths(both).contains(&true) || both[0] < WHOLE
        }),
        ("a shorter group refused", |both| {
            lengths(both).contains(&true) || both[0] % WHOLE != 0
        }),
        ("any number of numbers", |both| {
            let [_, many, other] = lengths(both);
            many || other
        }),
        ("one number less than a record", |[read, written]| {
            (read + 1) / MOMENTS * MOMENTS < read || read > MOST || written != read
        }),
        ("whole records behind a group alone", |both| {
            let [broken, many, other] = lengths(both);
            broken && both[0] < WHOLE || many || other
        }),
        ("anything to write to", |both| {
            let [broken, many, _] = lengths(both);
            broken || many
        }),
        ("more to write to", |[read, written]| {
            read % MOMENTS != 0 || read > MOST || written < read
        }),
        ("less to write to", |[read, written]| {
            read % MOMENTS != 0 || read > MOST || written > read
        }),
        ("as many whole records to write to", |[read, written]| {
            read % MOMENTS != 0 || read > MOST || written / MOMENTS != read / MOMENTS
        }),
        ("as many groups to write to", |[read, written]| {
            read % MOMENTS != 0 || read > MOST || written / WHOLE != read / WHOLE
        }),
    ];

    #[test]
    fn other_lengths_that_are_refused_are_found() {
        let found = RefCell::new(BTreeSet::new());
        let look = |call: &'static str| {
            let found = &found;
            move |both: [usize; 2]| {
                let right = model::bad_lengths(both);
                assert_eq!(lengths(both).contains(&true), right);
                let wrong = LENGTHS.into_iter().filter(|(_, bad)| bad(both) != right);
                found
                    .borrow_mut()
                    .extend(wrong.map(|(name, _)| (call, name)));
                model::refusal(both)
            }
        };
        let write = model::write_call(look("write"), model::place);
        let read = model::read_call(look("read"), model::place);
        assert_eq!(mismatches([&write, &read], each_case), 0);
        for call in ["write", "read"] {
            for (name, _) in LENGTHS {
                assert!(found.borrow().contains(&(call, name)), "{call}: {name}");
            }
        }
    }

    #[test]
    fn refused_calls_that_write_are_found() {
        // A call of these lengths is refused and changes the last number that it could write.
        let changed = RefCell::new(Vec::new());
        let writes = |right: &'static Call<'static, 2, 0>| {
            let changed = &changed;
            move |[from, to]: [&mut [f64]; 2], []: [&mut [u32]; 0]| {
                let answer = right([&mut *from, &mut *to], []);
                if let (true, Some(last)) = (answer != 0, to.last_mut()) {
                    *last = f64::from_bits(last.to_bits() ^ 1);
                    changed.borrow_mut().push(lengths([from.len(), to.len()]));
                }
                answer
            }
        };
        for calls in [
            [&writes(RIGHT[0]) as &Call<'_, 2, 0>, RIGHT[1]],
            [RIGHT[0], &writes(RIGHT[1])],
        ] {
            let found = mismatches(calls, each_case);
            let changed = changed.take();
            assert_eq!(found, changed.len() as u64);
            // Each part alone, and with each of the others.
            let parts: BTreeSet<[bool; 3]> = changed.into_iter().collect();
            assert_eq!(parts.len(), 7);
        }
    }
}
