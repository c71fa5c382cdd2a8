//! Counts that are full: which pushes and merges are refused, through the slices and through the type, and that a refused one
//! leaves every bit of the record.

mod lent;

use lent::{bits, patterns};
use maghnelt::{
    card_write, slices, Action, BlockMap, Decomposition, FitSums, FrameFactor, Moments,
    NormalEquations, Refusal, MAX_COUNT, MAX_POINTS, MOMENTS,
};

type Record = [f64; MOMENTS];

const POINT: [f64; 3] = [1.0, 2.0, 3.0];

const UNIT: [[f64; 3]; 3] = [[1.0, 0.0, 0.0], [0.0, 1.0, 0.0], [0.0, 0.0, 1.0]];

/// Of points that lie level.
const LEVEL: Decomposition = Decomposition {
    eigenvalues: [2.0, 1.0, 0.0],
    vectors: UNIT,
};

/// NaNs of both signs, quiet and signalling.
const NANS: [u64; 5] = [
    0x7FF8_0000_0000_0000,
    0xFFF8_0000_0000_0B0B,
    0x7FF0_0000_0000_0D1E,
    0xFFF0_0000_0000_0001,
    0xFFFF_FFFF_FFFF_FFFF,
];

/// A record of that count. Its other numbers are NaNs of both signs, quiet and signalling, each with a payload of its own, and
/// between them numbers, -0 and a subnormal.
fn with_count(count: f64) -> Record {
    std::array::from_fn(|place| match place {
        0 => count,
        _ => {
            let own = place as u64;
            f64::from_bits(match place % 7 {
                1 => 0x7FF8_0000_0000_0B00 | own,
                2 => 0xFFF0_0000_0000_0D00 | own,
                3 => 0x4059_0000_0000_0000 | own,
                4 => 0x8000_0000_0000_0000,
                5 => 0x7FF0_0000_0000_0D00 | own,
                6 => 0xFFF8_0000_0000_0B00 | own,
                _ => 0x8000_0000_0000_0000 | own,
            })
        }
    })
}

/// The set of a count whose points are all at the origin.
fn at_origin(count: f64) -> Moments {
    let mut record = [0.0; MOMENTS];
    record[0] = count;
    Moments::from(record)
}

/// The record after a call, by slices and by the type. Both have the same answer, and a refused one leaves every bit.
fn after(
    before: &Record,
    lent: impl Fn(&mut [f64]) -> Result<(), Refusal>,
    typed: impl Fn(&mut Moments) -> Result<(), Refusal>,
) -> Result<Record, Refusal> {
    let mut record = *before;
    let mut moments = Moments::from(*before);
    let answer = lent(&mut record);
    assert_eq!(typed(&mut moments), answer);
    if answer.is_err() {
        assert_eq!(bits(&record), bits(before));
        assert_eq!(bits(moments.as_array()), bits(before));
    }
    assert!(same(&record, moments.as_array()));
    answer.map(|()| record)
}

fn pushed(before: &Record) -> Result<Record, Refusal> {
    after(
        before,
        |record| slices::moments_push(record, &POINT),
        |moments| moments.push(&POINT),
    )
}

fn merged(before: &Record, other: &Record) -> Result<Record, Refusal> {
    after(
        before,
        |record| slices::moments_merge(record, other),
        |moments| moments.merge(&Moments::from(*other)),
    )
}

/// Equal number by number; one NaN is another.
fn same(first: &Record, second: &Record) -> bool {
    let equal = |(x, y): (&f64, &f64)| x.to_bits() == y.to_bits() || x.is_nan() && y.is_nan();
    first.iter().zip(second).all(equal)
}

/// The sums of two records, number by number.
fn sums(first: &Record, second: &Record) -> Record {
    std::array::from_fn(|place| first[place] + second[place])
}

/// Whether a push to that count is refused. An accepted one adds the point.
fn push_is_refused(count: f64) -> bool {
    let before = with_count(count);
    match pushed(&before) {
        Ok(record) => {
            let point = Moments::from_points(&[POINT]).unwrap();
            assert!(same(&record, &sums(&before, point.as_array())), "{count:e}");
            false
        }
        Err(refusal) => {
            assert_eq!(refusal, Refusal::Saturated, "{count:e}");
            true
        }
    }
}

/// Whether a merge of those counts is refused, whichever is merged into the other. An accepted one adds number by number.
fn merge_is_refused(a: f64, b: f64) -> bool {
    let [first, second] = [a, b].map(with_count);
    let answers = [(first, second), (second, first)].map(|(before, other)| {
        let answer = merged(&before, &other);
        if let Ok(record) = answer {
            assert!(same(&record, &sums(&before, &other)), "{a:e} and {b:e}");
        }
        answer.map(|_| ())
    });
    assert_eq!(answers[0], answers[1], "{a:e} and {b:e}");
    if let Err(refusal) = answers[0] {
        assert_eq!(refusal, Refusal::Saturated, "{a:e} and {b:e}");
    }
    answers[0].is_err()
}

#[test]
fn a_push_to_a_full_count_is_refused() {
    for full in [MAX_COUNT, MAX_COUNT + 2.0, 1e300, f64::MAX, f64::INFINITY] {
        assert!(push_is_refused(full), "{full:e}");
    }
}

#[test]
fn a_push_to_any_other_count_is_accepted() {
    let counts = [0.0, 0.5, f64::from_bits(1), 1.0, MAX_COUNT / 2.0];
    let large = [MAX_COUNT - 1.0, f64::MAX, f64::INFINITY];
    for count in counts.into_iter().chain([MAX_COUNT - 1.0]) {
        assert!(!push_is_refused(count), "{count:e}");
    }
    for count in counts.into_iter().chain(large).chain([MAX_COUNT]) {
        assert!(!push_is_refused(-count), "{:e}", -count);
    }
    for nan in NANS.map(f64::from_bits) {
        assert!(!push_is_refused(nan));
    }
}

#[test]
fn the_exact_sum_of_two_counts_decides() {
    let least = f64::from_bits(1);
    let two_to_106 = MAX_COUNT * MAX_COUNT;
    for (a, b, refused) in [
        (MAX_COUNT, 1.0, true),
        (MAX_COUNT, least, true),
        (MAX_COUNT, 0.0, false),
        (MAX_COUNT, -0.0, false),
        (MAX_COUNT, -least, false),
        (MAX_COUNT, MAX_COUNT, true),
        (MAX_COUNT + 2.0, -2.0, false),
        (MAX_COUNT + 2.0, -1.0, true),
        (MAX_COUNT / 2.0, MAX_COUNT / 2.0, false),
        (MAX_COUNT / 2.0, MAX_COUNT / 2.0 + 1.0, true),
        (MAX_COUNT - 1.0, 1.0, false),
        // The rounded sum of these two is 2^53.
        (MAX_COUNT - 1.0, 1.5, true),
        (MAX_COUNT - 1.0, 1.0 + f64::EPSILON, true),
        (-MAX_COUNT, -1.0, false),
        (two_to_106, -two_to_106 + MAX_COUNT, false),
        (two_to_106, -two_to_106 + 2.0 * MAX_COUNT, true),
        (two_to_106, -two_to_106, false),
        (f64::MAX, f64::MIN, false),
        // The rounded sum of these two is infinite.
        (f64::MAX, f64::MAX, true),
        (f64::MIN, f64::MIN, false),
    ] {
        assert_eq!(merge_is_refused(a, b), refused, "{a:e} and {b:e}");
    }
}

/// Counts in quarters, near 2^53 and its half and double and near 0, all pairs: their sums as whole numbers.
#[test]
fn every_sum_of_quarters_is_taken_exactly() {
    const QUARTERS: f64 = 4.0;
    let around =
        |count: f64| (-6..=6).map(move |k| f64::from_bits(count.to_bits().wrapping_add_signed(k)));
    let near_0 = (-16..=16).map(|quarters| f64::from(quarters) / QUARTERS);
    let large = [MAX_COUNT / 2.0, MAX_COUNT, 2.0 * MAX_COUNT].into_iter();
    let counts: Vec<f64> = large
        .flat_map(around)
        .flat_map(|count| [count, -count])
        .chain(near_0)
        .collect();
    let in_quarters = |count: f64| (QUARTERS * count) as i128;
    for &a in &counts {
        for &b in &counts {
            let above = in_quarters(a) + in_quarters(b) > in_quarters(MAX_COUNT);
            assert_eq!(merge_is_refused(a, b), above, "{a:e} and {b:e}");
        }
    }
}

#[test]
fn an_infinite_count_is_above_or_below_every_number() {
    let counts = [0.0, f64::from_bits(1), 1.0, MAX_COUNT, 1e308, f64::MAX];
    for count in counts.into_iter().flat_map(|count| [count, -count]) {
        assert!(merge_is_refused(f64::INFINITY, count), "{count:e}");
        assert!(!merge_is_refused(f64::NEG_INFINITY, count), "{count:e}");
    }
    assert!(merge_is_refused(f64::INFINITY, f64::INFINITY));
    assert!(!merge_is_refused(f64::NEG_INFINITY, f64::NEG_INFINITY));
    assert!(!merge_is_refused(f64::INFINITY, f64::NEG_INFINITY));
}

#[test]
fn a_nan_count_is_not_refused() {
    for nan in NANS.map(f64::from_bits) {
        for count in [0.0, 1.0, MAX_COUNT, f64::MAX, f64::INFINITY, f64::NAN] {
            assert!(!merge_is_refused(nan, count), "{count:e}");
            assert!(!merge_is_refused(nan, -count), "{:e}", -count);
        }
    }
}

/// Numbers of which the first is a full count.
fn full(length: usize) -> Vec<f64> {
    let mut numbers = patterns(length);
    if let Some(count) = numbers.first_mut() {
        *count = MAX_COUNT;
    }
    numbers
}

/// Lends a full set of that length and sees that the call refuses it and leaves it.
fn refused(reason: Refusal, length: usize, call: impl FnOnce(&mut [f64]) -> Result<(), Refusal>) {
    let mut set = full(length);
    assert_eq!(call(&mut set), Err(reason), "{length} numbers");
    assert_eq!(bits(&set), bits(&full(length)));
}

#[test]
fn lengths_are_tested_before_counts() {
    let reason = |right| {
        if right {
            Refusal::Saturated
        } else {
            Refusal::Length
        }
    };
    let lengths = [0, 1, MOMENTS - 1, MOMENTS, MOMENTS + 1, 2 * MOMENTS];
    for of_set in lengths {
        for of_point in [0, 2, 3, 4] {
            let reason = reason([of_set, of_point] == [MOMENTS, 3]);
            let point = patterns(of_point);
            refused(reason, of_set, |set| slices::moments_push(set, &point));
        }
        for of_other in lengths {
            let reason = reason([of_set, of_other] == [MOMENTS; 2]);
            let other = full(of_other);
            refused(reason, of_set, |set| slices::moments_merge(set, &other));
        }
    }
}

#[test]
fn whole_counts_that_are_accepted_are_exact() {
    const MOST: u64 = 1 << 53;
    let counts = [1, 2, 3, MAX_POINTS as u64, MOST / 3, MOST / 2 - 1, MOST / 2];
    for first in counts.into_iter().flat_map(|count| [count, MOST - count]) {
        let room = MOST - first;
        for second in [0, 1, room / 2, room - 1, room] {
            let mut moments = at_origin(first as f64);
            moments.merge(&at_origin(second as f64)).unwrap();
            assert_eq!(moments.count() as u64, first + second);
        }
        let mut moments = at_origin(first as f64);
        let one_too_many = at_origin((room + 1) as f64);
        assert_eq!(moments.merge(&one_too_many), Err(Refusal::Saturated));
        moments.push(&POINT).unwrap();
        assert_eq!(moments.count() as u64, first + 1);
    }
}

/// A set that is doubled counts up to 2^53, and then stays.
#[test]
fn a_set_that_is_merged_with_itself() {
    let mut moments = Moments::from_points(&[POINT]).unwrap();
    for doublings in 1..=53 {
        let same = moments;
        moments.merge(&same).unwrap();
        assert_eq!(moments.count(), 2f64.powi(doublings));
    }
    let full = moments;
    for _ in 0..3 {
        assert_eq!(moments.merge(&full), Err(Refusal::Saturated));
        assert_eq!(moments.push(&POINT), Err(Refusal::Saturated));
        assert_eq!(bits(moments.as_array()), bits(full.as_array()));
    }
    moments.merge(&Moments::EMPTY).unwrap();
    assert_eq!(moments, full);
}

/// The other calls take a full set.
#[test]
fn only_pushes_and_merges_are_refused() {
    for count in [MAX_COUNT, 4.0 * MAX_COUNT, 1e300] {
        let full = at_origin(count);
        assert_eq!(full.transformed(&UNIT, &[0.0; 3]).count(), count);
        assert_eq!(full.mean_and_scatter().unwrap().mean, [0.0; 3]);
        assert!(full.plane(&LEVEL).is_some());
        assert!(card_write(&[full; 2]).is_ok());
        let factor = FrameFactor::new(6, &[full; 2], Some(&full), 0.5).unwrap();
        assert_eq!(factor.points(), count + count + count);
    }
}

/// Fit, cost and normal equations of sets that one pose saw.
fn of_one_pose(sets: &[Moments]) -> (FitSums, f64, NormalEquations) {
    let factor = FrameFactor::new(6, sets, None, 0.5).unwrap();
    let actions = vec![Action::rigid(&UNIT, &[0.0, 0.0, 5.0]); sets.len()];
    let map = BlockMap::new(sets.iter().map(|_| Some(0))).unwrap();
    let mut normal = NormalEquations::zeros(6);
    let cost = factor.accumulate(&actions, &LEVEL, &map, &mut normal);
    (factor.fit(&actions).unwrap(), cost.unwrap(), normal)
}

/// So a host may hand in a full set and the one that it began after it. All numbers here are exact.
#[test]
fn two_frames_of_one_pose_add_what_one_frame_of_all_points_does() {
    let corners = [[0.0, 0.0], [2.0, 0.0], [0.0, 2.0], [2.0, 2.0]];
    let first = Moments::from_points(&corners.map(|[x, y]| [x, y, 0.0])).unwrap();
    let second = Moments::from_points(&corners.map(|[x, y]| [x + 4.0, y, 1.0])).unwrap();
    let mut both = first;
    both.merge(&second).unwrap();
    let (sums, cost, normal) = of_one_pose(&[first, second]);
    assert_eq!((sums, cost, normal), of_one_pose(&[both]));
    assert_eq!(cost, 8.0);
}
