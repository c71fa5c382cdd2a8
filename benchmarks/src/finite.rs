//! A test that the plain Rust of several subjects makes.

/// Numbers that are tested at once.
const GROUP: usize = 8;

/// Whether every number is finite.
#[inline(always)]
pub fn all_finite(numbers: &[f64]) -> bool {
    let finite = |group: &[f64]| group.iter().fold(true, |all, x| all & x.is_finite());
    let (groups, rest) = numbers.as_chunks::<GROUP>();
    groups.iter().all(|group| finite(group)) && finite(rest)
}
