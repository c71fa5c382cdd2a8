//! The model of cards: moment lists in groups of eight, each group's counts first.
//!
//! Numbers are moved and never worked with, so that a NaN keeps its sign and its payload.

use super::{first, LENGTH};
use maghnelt::{GROUP, MAX_RECORDS, MOMENTS};

/// Why a call is refused, or 0, by the lengths of what it reads and of what it writes.
pub fn refusal(lengths: [usize; 2]) -> u32 {
    first(&[(LENGTH, bad_lengths(lengths))])
}

/// Reason 3: what is read is not whole records or too many, or what is written is not as long.
pub fn bad_lengths([read, written]: [usize; 2]) -> bool {
    read % MOMENTS != 0 || read / MOMENTS > MAX_RECORDS || written != read
}

/// Where a number of a record goes on the card of so many records: number f of record r in its group of eight goes to place
/// 8·f + r, and a last shorter group is left in record order.
pub fn place(records: usize, record: usize, f: usize) -> usize {
    let first = record / GROUP * GROUP;
    let r = record - first;
    let in_group = if records - first < GROUP {
        MOMENTS * r + f
    } else {
        GROUP * f + r
    };
    MOMENTS * first + in_group
}

/// The places of all numbers of a list, in the list's order.
fn places(
    length: usize,
    place: &impl Fn(usize, usize, usize) -> usize,
) -> impl Iterator<Item = usize> + '_ {
    let records = length / MOMENTS;
    (0..records).flat_map(move |record| (0..MOMENTS).map(move |f| place(records, record, f)))
}

/// The call `card_write` on a list and a card.
pub fn write_call(
    refusal: impl Fn([usize; 2]) -> u32,
    place: impl Fn(usize, usize, usize) -> usize,
) -> impl Fn([&mut [f64]; 2], [&mut [u32]; 0]) -> u32 {
    move |[moments, card], []| {
        let refusal = refusal([moments.len(), card.len()]);
        if refusal == 0 {
            for (number, place) in moments.iter().zip(places(moments.len(), &place)) {
                card[place] = *number;
            }
        }
        refusal
    }
}

/// The call `card_read` on a card and a list.
pub fn read_call(
    refusal: impl Fn([usize; 2]) -> u32,
    place: impl Fn(usize, usize, usize) -> usize,
) -> impl Fn([&mut [f64]; 2], [&mut [u32]; 0]) -> u32 {
    move |[card, moments], []| {
        let refusal = refusal([card.len(), moments.len()]);
        if refusal == 0 {
            for (number, place) in moments.iter_mut().zip(places(card.len(), &place)) {
                *number = card[place];
            }
        }
        refusal
    }
}

/// What both calls in turn have to leave: the same numbers.
pub fn restored([from, to]: [&mut [f64]; 2], []: [&mut [u32]; 0]) -> u32 {
    let refusal = refusal([from.len(), to.len()]);
    if refusal == 0 {
        to.copy_from_slice(from);
    }
    refusal
}

#[cfg(test)]
mod tests {
    use super::*;

    /// A list in which number f of record r is 100·r + f.
    fn list(records: usize) -> Vec<f64> {
        let record = |r: usize| (0..MOMENTS).map(move |f| (100 * r + f) as f64);
        (0..records).flat_map(record).collect()
    }

    fn written(mut list: Vec<f64>) -> Vec<f64> {
        let mut card = vec![f64::NAN; list.len()];
        let answer = write_call(refusal, place)([&mut list, &mut card], []);
        assert_eq!(answer, 0);
        card
    }

    #[test]
    fn counts_are_first_and_then_each_further_number() {
        let card = written(list(GROUP));
        let counts = [0.0, 100.0, 200.0, 300.0, 400.0, 500.0, 600.0, 700.0];
        assert_eq!(card[..GROUP], counts);
        assert_eq!(card[GROUP], 1.0);
        assert_eq!(card[GROUP + 1], 101.0);
        assert_eq!(card[3 * GROUP + 5], 503.0);
        assert_eq!(card.last(), list(GROUP).last());
    }

    #[test]
    fn a_last_shorter_group_is_left_in_record_order() {
        for records in 0..GROUP {
            assert_eq!(written(list(records)), list(records));
        }
        for records in GROUP + 1..2 * GROUP {
            let group = GROUP * MOMENTS;
            let card = written(list(records));
            assert_eq!(card[..group], written(list(GROUP)));
            assert_eq!(card[group..], list(records)[group..]);
        }
    }

    #[test]
    fn the_second_group_is_stored_as_the_first() {
        let group = GROUP * MOMENTS;
        let second: Vec<f64> = list(GROUP).iter().map(|x| x + 5000.0).collect();
        let card = written([list(GROUP), second.clone()].concat());
        assert_eq!(card[..group], written(list(GROUP)));
        assert_eq!(card[group..], written(second));
    }

    #[test]
    fn every_place_is_taken_once() {
        for records in [0, 1, 7, 8, 9, 16, 23, 24, 65] {
            let mut all: Vec<usize> = places(MOMENTS * records, &place).collect();
            all.sort_unstable();
            assert!(all.into_iter().eq(0..MOMENTS * records));
        }
    }

    #[test]
    fn reading_restores_a_list() {
        for records in [0, 7, 8, 9, 31] {
            let mut again = vec![f64::NAN; MOMENTS * records];
            let mut card = written(list(records));
            let answer = read_call(refusal, place)([&mut card, &mut again], []);
            assert_eq!((answer, again), (0, list(records)));
        }
    }

    #[test]
    fn lengths_that_are_refused() {
        let most = MOMENTS * MAX_RECORDS;
        for length in [0, MOMENTS, MOMENTS * GROUP, MOMENTS * 9, most] {
            assert_eq!(refusal([length; 2]), 0, "{length}");
            assert_eq!(refusal([length + 1; 2]), LENGTH, "{length}");
            assert_eq!(refusal([length, length + MOMENTS]), LENGTH, "{length}");
            assert_eq!(refusal([length + MOMENTS, length]), LENGTH, "{length}");
        }
        assert_eq!(refusal([most + MOMENTS; 2]), LENGTH);
    }
}
