//! Bit patterns of f64: the special ones, and random ones in which the special kinds are frequent.

use crate::generator::Generator;

/// The bit of the sign.
pub const SIGN: u64 = 1 << 63;
/// The bits of the fraction.
pub const FRACTION: u64 = (1 << 52) - 1;
/// The pattern of infinity; what lies above it below the sign bit is a NaN.
pub const INFINITY: u64 = 0x7FF0_0000_0000_0000;
/// The bit that a quiet NaN has and a signalling one has not.
pub const QUIET: u64 = 1 << 51;

/// Patterns without a sign at which a kind begins or ends, and some between.
const MAGNITUDES: [u64; 32] = [
    0x0000_0000_0000_0000, // zero
    0x0000_0000_0000_0001, // subnormals
    0x0000_0000_0000_0002,
    0x0000_0000_8000_0000,
    0x0007_FFFF_FFFF_FFFF,
    0x0008_0000_0000_0000,
    0x000F_FFFF_FFFF_FFFE,
    0x000F_FFFF_FFFF_FFFF,
    0x0010_0000_0000_0000, // normal numbers
    0x0010_0000_0000_0001,
    0x001F_FFFF_FFFF_FFFF,
    0x0020_0000_0000_0000,
    0x3FE0_0000_0000_0000, // a half
    0x3FEF_FFFF_FFFF_FFFF,
    0x3FF0_0000_0000_0000, // one
    0x3FF0_0000_0000_0001,
    0x4000_0000_0000_0000, // two
    0x4340_0000_0000_0000, // 2^53
    0x7FE0_0000_0000_0000,
    0x7FEF_FFFF_FFFF_FFFE,
    0x7FEF_FFFF_FFFF_FFFF,
    0x7FF0_0000_0000_0000, // infinity
    0x7FF0_0000_0000_0001, // signalling NaNs
    0x7FF0_0000_0000_0002,
    0x7FF4_0000_0000_0000,
    0x7FF7_FFFF_FFFF_FFFE,
    0x7FF7_FFFF_FFFF_FFFF,
    0x7FF8_0000_0000_0000, // quiet NaNs
    0x7FF8_0000_0000_0001,
    0x7FFC_0000_0000_0000,
    0x7FFF_FFFF_FFFF_FFFE,
    0x7FFF_FFFF_FFFF_FFFF,
];

/// The special patterns, each with both signs.
pub fn special() -> Vec<u64> {
    MAGNITUDES
        .iter()
        .flat_map(|&magnitude| [magnitude, magnitude | SIGN])
        .collect()
}

/// Patterns at the edges of every exponent, subnormals, infinities and NaNs among them, with both signs.
pub fn exponent_edges() -> impl Iterator<Item = u64> {
    const HALF: u64 = 1 << 51;
    const FRACTIONS: [u64; 16] = [
        0,
        1,
        2,
        3,
        HALF / 2,
        HALF - 2,
        HALF - 1,
        HALF,
        HALF + 1,
        HALF + 2,
        HALF + HALF / 2,
        0x5_5555_5555_5555,
        0xA_AAAA_AAAA_AAAA,
        FRACTION - 2,
        FRACTION - 1,
        FRACTION,
    ];
    // Sign and exponent are the top twelve bits.
    (0..1u64 << 12).flat_map(|top| FRACTIONS.iter().map(move |fraction| top << 52 | fraction))
}

/// A random pattern. Half are any 64 bits; of the others all kinds are frequent, those next to a special pattern too.
pub fn random(generator: &mut Generator) -> u64 {
    let sign = generator.bits() & SIGN;
    match generator.below(12) {
        0 => sign | generator.pick(&MAGNITUDES),
        1 => (sign | generator.pick(&MAGNITUDES)).wrapping_add_signed(generator.between(-4, 4)),
        2 => sign | random_subnormal(generator),
        3 => sign | random_nan(generator),
        // Numbers such as are met in measurements: between 2^-32 and 2^32.
        4 => sign | (1023 - 32 + generator.below(64)) << 52 | (generator.bits() & FRACTION),
        // Whole numbers, whose low bits are zero.
        5 => sign | (generator.below(2048) as f64).to_bits(),
        _ => generator.bits(),
    }
}

/// A subnormal above zero; all lengths of its fraction are equally frequent.
pub fn random_subnormal(generator: &mut Generator) -> u64 {
    let width = 1 + generator.below(52) as u32;
    generator.of_width(width)
}

/// A NaN with a plus sign, quiet or signalling; all lengths of its payload are equally frequent.
pub fn random_nan(generator: &mut Generator) -> u64 {
    let width = 1 + generator.below(51) as u32;
    let quiet = generator.bits() & QUIET;
    INFINITY | quiet | generator.of_width(width)
}

/// Whether two results are the same: the same bits, or both a NaN, whose sign and payload are left open.
pub fn same(a: f64, b: f64) -> bool {
    a.to_bits() == b.to_bits() || a.is_nan() && b.is_nan()
}

#[cfg(test)]
mod tests {
    use super::*;
    use std::num::FpCategory::{self, Infinite, Nan, Normal, Subnormal, Zero};

    fn kind(bits: u64) -> FpCategory {
        f64::from_bits(bits).classify()
    }

    #[test]
    fn every_kind_is_special_with_both_signs() {
        for expected in [Zero, Subnormal, Normal, Infinite, Nan] {
            for sign in [0, SIGN] {
                assert!(special()
                    .iter()
                    .any(|&bits| bits & SIGN == sign && kind(bits) == expected));
            }
        }
    }

    #[test]
    fn random_patterns_are_of_every_kind() {
        let mut generator = Generator::new(1);
        let drawn: Vec<u64> = (0..10_000).map(|_| random(&mut generator)).collect();
        for expected in [Zero, Subnormal, Normal, Infinite, Nan] {
            let number = drawn.iter().filter(|&&bits| kind(bits) == expected).count();
            assert!(number >= 10, "{expected:?} was drawn {number} times");
        }
    }

    #[test]
    fn random_subnormals_and_nans_are_what_they_say() {
        let mut generator = Generator::new(1);
        for _ in 0..1000 {
            assert_eq!(kind(random_subnormal(&mut generator)), Subnormal);
            assert_eq!(kind(random_nan(&mut generator)), Nan);
        }
    }

    #[test]
    fn zeros_differ_and_nans_do_not() {
        assert!(!same(0.0, -0.0));
        assert!(same(f64::NAN, -f64::NAN));
        assert!(!same(f64::NAN, 1.0));
        assert!(same(1.0, 1.0));
    }
}
