//! Outputs that are lent with patterns in them, so that a test sees every write.

/// Signalling and quiet NaNs with payloads, and numbers: what a write would hardly leave in place.
pub fn patterns(length: usize) -> Vec<f64> {
    const BITS: [u64; 5] = [
        0x7FF0_0000_0000_0D1E,
        0xFFF8_0000_0000_0B0B,
        0x8000_0000_0000_0000,
        0x0000_0000_0000_0001,
        0x4059_0000_0000_0000,
    ];
    (0..length)
        .map(|place| f64::from_bits(BITS[place % BITS.len()]))
        .collect()
}

pub fn bits(numbers: &[f64]) -> Vec<u64> {
    numbers.iter().map(|x| x.to_bits()).collect()
}
