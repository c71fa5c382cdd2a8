//! `maghnelt::sqrt` on numbers whose roots are known, compared by bits.

/// The bits of the root of the number that has the bits `x`.
fn root_bits(x: u64) -> u64 {
    maghnelt::sqrt(f64::from_bits(x)).to_bits()
}

#[test]
fn root_of_four_is_two() {
    assert_eq!(root_bits(4.0f64.to_bits()), 2.0f64.to_bits());
}

#[test]
fn root_of_two_is_rounded_to_nearest() {
    assert_eq!(root_bits(2.0f64.to_bits()), 0x3FF6_A09E_667F_3BCD);
}

#[test]
fn root_of_the_smallest_subnormal() {
    assert_eq!(root_bits(0x0000_0000_0000_0001), 0x1E60_0000_0000_0000);
}

#[test]
fn root_of_the_largest_subnormal() {
    // 2^-1022 - 2^-1074 has the root 2^-511 * (1 - 2^-53 - 2^-107 - ..), and 2^-511 * (1 - 2^-53) is a number.
    assert_eq!(root_bits(0x000F_FFFF_FFFF_FFFF), 0x1FFF_FFFF_FFFF_FFFF);
}

#[test]
fn root_of_the_smallest_normal() {
    assert_eq!(root_bits(0x0010_0000_0000_0000), 0x2000_0000_0000_0000);
}

#[test]
fn root_of_the_largest_number() {
    assert_eq!(root_bits(0x7FEF_FFFF_FFFF_FFFF), 0x5FEF_FFFF_FFFF_FFFF);
}

#[test]
fn both_zeros_are_their_own_roots() {
    assert_eq!(root_bits(0x0000_0000_0000_0000), 0x0000_0000_0000_0000);
    assert_eq!(root_bits(0x8000_0000_0000_0000), 0x8000_0000_0000_0000);
}

#[test]
fn infinity_is_its_own_root() {
    assert_eq!(root_bits(0x7FF0_0000_0000_0000), 0x7FF0_0000_0000_0000);
}

#[test]
fn no_number_below_zero_has_a_root() {
    for bits in [
        0x8000_0000_0000_0001, // the subnormal next to -0
        0xBFF0_0000_0000_0000, // -1
        0xFFEF_FFFF_FFFF_FFFF, // the lowest number
        0xFFF0_0000_0000_0000, // minus infinity
    ] {
        assert!(
            f64::from_bits(root_bits(bits)).is_nan(),
            "root of {bits:016X}"
        );
    }
}

#[test]
fn the_root_of_a_nan_is_a_nan() {
    for bits in [
        0x7FF0_0000_0000_0001, // signalling, smallest payload
        0x7FF7_FFFF_FFFF_FFFF, // signalling, largest payload
        0x7FF8_0000_0000_0000, // quiet, no payload
        0x7FFF_FFFF_FFFF_FFFF, // quiet, largest payload
        0xFFF0_0000_0000_0001,
        0xFFF8_0000_0000_0000,
        0xFFFF_FFFF_FFFF_FFFF,
    ] {
        assert!(
            f64::from_bits(root_bits(bits)).is_nan(),
            "root of {bits:016X}"
        );
    }
}

#[test]
fn squares_of_whole_numbers_have_exact_roots() {
    // A square of a number below 2^26 has at most 52 bits, so that it is a number and its root is exact.
    for n in (0..1u64 << 26).step_by(65_521) {
        let n = n as f64;
        assert_eq!(
            maghnelt::sqrt(n * n).to_bits(),
            n.to_bits(),
            "root of the square of {n}"
        );
    }
}
