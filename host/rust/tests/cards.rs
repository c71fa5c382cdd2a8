//! Moment lists on a card: where each number stands, that each call undoes the other bit for bit, and what is refused.

mod lent;

use lent::{bits, patterns};
use maghnelt::{card_read, card_write, slices, Moments, Refusal, GROUP, MAX_RECORDS, MOMENTS};

/// One of the two calls on slices.
type Call = fn(&[f64], &mut [f64]) -> Result<(), Refusal>;

const CALLS: [Call; 2] = [slices::card_write, slices::card_read];

/// What a call makes of an output of that length. A refused one leaves it.
fn called(call: Call, input: &[f64], length: usize) -> Result<Vec<u64>, Refusal> {
    let mut out = patterns(length);
    let answer = call(input, &mut out);
    if answer.is_err() {
        assert_eq!(bits(&out), bits(&patterns(length)));
    }
    answer.map(|()| bits(&out))
}

/// Records whose number f of record k is 100·k + f.
fn numbered(records: usize) -> Vec<f64> {
    (0..records)
        .flat_map(|k| (0..MOMENTS).map(move |f| (100 * k + f) as f64))
        .collect()
}

/// Numbers of every kind: NaNs of both signs, quiet and signalling, each with a payload of its own; subnormals, zeros and
/// infinities of both signs; and normal numbers.
fn every_kind(length: usize) -> Vec<f64> {
    (0..length as u64)
        .map(|place| {
            let own = place + 1;
            f64::from_bits(match place % 11 {
                0 => 0x7FF8_0000_0000_0000 | own,
                1 => 0xFFF8_0000_0000_0000 | own,
                2 => 0x7FF0_0000_0000_0000 | own,
                3 => 0xFFF0_0000_0000_0000 | own,
                4 => own,
                5 => 0x8000_0000_0000_0000 | own,
                6 => 0,
                7 => 0x8000_0000_0000_0000,
                8 => 0x7FF0_0000_0000_0000,
                9 => 0xFFF0_0000_0000_0000,
                _ => 0x3FF0_0000_0000_0000 | own,
            })
        })
        .collect()
}

/// The card of a list by the rule, number by number.
fn by_the_rule(list: &[f64]) -> Vec<f64> {
    let whole_groups = list.len() / MOMENTS / 8;
    let mut card = list.to_vec();
    for (place, number) in list.iter().enumerate() {
        let (record, f) = (place / MOMENTS, place % MOMENTS);
        let (group, r) = (record / 8, record % 8);
        if group < whole_groups {
            card[group * 8 * MOMENTS + 8 * f + r] = *number;
        }
    }
    card
}

#[test]
fn the_counts_of_a_group_come_first() {
    let list = numbered(GROUP);
    let mut card = patterns(list.len());
    slices::card_write(&list, &mut card).unwrap();
    assert_eq!(
        card[..8],
        [0.0, 100.0, 200.0, 300.0, 400.0, 500.0, 600.0, 700.0]
    );
    // Then the first number of each sum.
    assert_eq!(
        card[8..16],
        [1.0, 101.0, 201.0, 301.0, 401.0, 501.0, 601.0, 701.0]
    );
    let last = (700 + MOMENTS - 1) as f64;
    assert_eq!(card[card.len() - 2..], [last - 100.0, last]);

    // A ninth record is a group of its own, and no number of the first group goes elsewhere.
    let list = numbered(GROUP + 1);
    let mut longer = patterns(list.len());
    slices::card_write(&list, &mut longer).unwrap();
    assert_eq!(longer[..card.len()], card);
    assert_eq!(longer[card.len()..], list[card.len()..]);
}

#[test]
fn fewer_records_than_a_group_are_left_in_record_order() {
    for records in 0..GROUP {
        for list in [every_kind(MOMENTS * records), numbered(records)] {
            for call in CALLS {
                assert_eq!(called(call, &list, list.len()), Ok(bits(&list)));
            }
        }
    }
}

#[test]
fn every_number_goes_to_its_place_and_back() {
    let few = [0, 1, 7, 8, 9, 15, 16, 16 + 3];
    for records in few.into_iter().chain([MAX_RECORDS - 1, MAX_RECORDS]) {
        for list in [every_kind(MOMENTS * records), numbered(records)] {
            let card = by_the_rule(&list);
            let written = called(slices::card_write, &list, list.len());
            assert!(written == Ok(bits(&card)), "writing {records} records");
            let read = called(slices::card_read, &card, card.len());
            assert!(read == Ok(bits(&list)), "reading {records} records");
        }
    }
}

/// Of any numbers as a list, and of any numbers as a card.
#[test]
fn each_call_undoes_the_other() {
    let [write, read] = CALLS;
    for records in (0..=3 * GROUP).chain([MAX_RECORDS]) {
        let numbers = every_kind(MOMENTS * records);
        for (first, second) in [(write, read), (read, write)] {
            let mut between = patterns(numbers.len());
            first(&numbers, &mut between).unwrap();
            let back = called(second, &between, numbers.len());
            assert!(back == Ok(bits(&numbers)), "{records} records");
        }
    }
}

#[test]
fn slices_of_different_lengths_are_refused() {
    let numbers = every_kind(MOMENTS * 4 * GROUP);
    for records in [0, 1, 7, 8, 9, 16 + 3] {
        let whole = MOMENTS * records;
        let next = whole + MOMENTS;
        let lengths = [whole, whole + 1, next - 1, next, whole + MOMENTS * GROUP];
        for input in lengths {
            for output in lengths.into_iter().filter(|output| *output != input) {
                for call in CALLS {
                    let answer = called(call, &numbers[..input], output);
                    assert_eq!(answer, Err(Refusal::Length), "{input} and {output}");
                }
            }
        }
    }
}

#[test]
fn parts_of_records_are_refused() {
    let numbers = every_kind(MOMENTS * 3 * GROUP);
    for length in (0..numbers.len()).filter(|length| length % MOMENTS != 0) {
        for call in CALLS {
            let answer = called(call, &numbers[..length], length);
            assert_eq!(answer, Err(Refusal::Length), "{length} numbers");
        }
    }
}

#[test]
fn more_records_than_allowed_are_refused() {
    let numbers = every_kind(MOMENTS * (MAX_RECORDS + GROUP));
    let most = MOMENTS * MAX_RECORDS;
    for length in [most - 1, most + 1, most + MOMENTS, numbers.len()] {
        for call in CALLS {
            // Both slices are so long, or one of them, the other being as long as is allowed.
            for (input, output) in [(length, length), (length, most), (most, length)] {
                let answer = called(call, &numbers[..input], output);
                assert!(answer == Err(Refusal::Length), "{input} and {output}");
            }
        }
    }
}

/// The sets of these numbers.
fn sets(numbers: &[f64]) -> Vec<Moments> {
    let record = |numbers: &[f64]| <[f64; MOMENTS]>::try_from(numbers).unwrap();
    numbers
        .chunks(MOMENTS)
        .map(|numbers| Moments::from(record(numbers)))
        .collect()
}

fn bits_of_sets(sets: &[Moments]) -> Vec<u64> {
    sets.iter().flat_map(|set| bits(set.as_array())).collect()
}

#[test]
fn sets_go_to_a_card_and_back() {
    for records in [0, 1, 7, 8, 9, 16 + 3, MAX_RECORDS] {
        let list = every_kind(MOMENTS * records);
        let card = card_write(&sets(&list)).unwrap();
        assert!(bits(&card) == bits(&by_the_rule(&list)));
        let back = card_read(&card).unwrap();
        assert_eq!(back.len(), records);
        assert!(bits_of_sets(&back) == bits(&list));
    }
}

#[test]
fn sets_that_are_too_many_and_cards_of_wrong_lengths() {
    let most = MOMENTS * MAX_RECORDS;
    let too_many = vec![Moments::EMPTY; MAX_RECORDS + 1];
    assert_eq!(card_write(&too_many), Err(Refusal::Length));
    let numbers = vec![1.0; most + MOMENTS];
    let few = [1, MOMENTS - 1, MOMENTS + 1, GROUP * MOMENTS - 1];
    for length in few.into_iter().chain([most - 1, most + 1, most + MOMENTS]) {
        assert_eq!(card_read(&numbers[..length]), Err(Refusal::Length));
    }
}
