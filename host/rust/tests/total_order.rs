//! `maghnelt::total_order_key` on patterns of every kind.

use maghnelt::total_order_key;

/// Patterns in IEEE 754's total order, lowest first.
const RISING: [u64; 26] = [
    0xFFFF_FFFF_FFFF_FFFF, // quiet NaN with a minus sign, largest payload
    0xFFF8_0000_0000_0001, // the same with payload 1
    0xFFF8_0000_0000_0000, // the same with no payload
    0xFFF7_FFFF_FFFF_FFFF, // signalling NaN with a minus sign, largest payload
    0xFFF0_0000_0000_0001, // the same with the smallest payload
    0xFFF0_0000_0000_0000, // minus infinity
    0xFFEF_FFFF_FFFF_FFFF, // the lowest number
    0xBFF0_0000_0000_0000, // -1
    0x8010_0000_0000_0000, // the normal number next to zero, below it
    0x800F_FFFF_FFFF_FFFF, // the lowest subnormal
    0x8000_0000_0000_0001, // the subnormal next to zero, below it
    0x8000_0000_0000_0000, // -0
    0x0000_0000_0000_0000, // +0
    0x0000_0000_0000_0001,
    0x0000_0000_0000_0002,
    0x000F_FFFF_FFFF_FFFF,
    0x0010_0000_0000_0000,
    0x3FF0_0000_0000_0000, // 1
    0x3FF0_0000_0000_0001, // the number above 1
    0x7FEF_FFFF_FFFF_FFFF, // the largest number
    0x7FF0_0000_0000_0000, // infinity
    0x7FF0_0000_0000_0001, // signalling NaN, smallest payload
    0x7FF7_FFFF_FFFF_FFFF, // signalling NaN, largest payload
    0x7FF8_0000_0000_0000, // quiet NaN, no payload
    0x7FF8_0000_0000_0001,
    0x7FFF_FFFF_FFFF_FFFF, // quiet NaN, largest payload
];

#[test]
fn keys_rise_with_the_total_order() {
    for pair in RISING.windows(2) {
        assert!(
            total_order_key(pair[0]) < total_order_key(pair[1]),
            "{:016X} before {:016X}",
            pair[0],
            pair[1]
        );
    }
}

#[test]
fn keys_compare_as_total_cmp_does() {
    for a in RISING {
        for b in RISING {
            assert_eq!(
                total_order_key(a).cmp(&total_order_key(b)),
                f64::from_bits(a).total_cmp(&f64::from_bits(b)),
                "{a:016X} and {b:016X}"
            );
        }
    }
}

#[test]
fn minus_zero_is_just_before_zero() {
    assert_eq!(total_order_key(0x8000_0000_0000_0000), -1);
    assert_eq!(total_order_key(0x0000_0000_0000_0000), 0);
}

#[test]
fn nans_of_both_signs_are_at_the_ends() {
    assert_eq!(total_order_key(0xFFFF_FFFF_FFFF_FFFF), i64::MIN);
    assert_eq!(total_order_key(0x7FFF_FFFF_FFFF_FFFF), i64::MAX);
}
