//! Lists of moments in the order in which a card stores them: the counts of each group first.

use crate::{slices, Moments, Refusal, MOMENTS};

/// The numbers of the card that stores these sets, as many as the sets have.
///
/// A card stores a list in groups of [`GROUP`](crate::GROUP) records. In a whole group, number f of record r, both counted
/// from 0, stands at place `GROUP * f + r` of the group's numbers, so that the group begins with the counts of its records. A
/// last shorter group is in record order. Every number keeps its bits, a NaN too.
///
/// # Errors
///
/// [`Refusal::Length`] for more than [`MAX_RECORDS`](crate::MAX_RECORDS) sets. Cut longer lists: each part is a card of its
/// own.
///
/// # Examples
///
/// A viewer that shows only counts reads the first `GROUP` numbers of each whole group, and the first number of each record
/// of a last shorter one. It has to know how long the card is.
///
/// ```
/// use maghnelt::{card_write, Moments, GROUP, MOMENTS};
///
/// # fn main() -> Result<(), maghnelt::Refusal> {
/// // Ten sets, the first of one point, the second of two, and so on.
/// let mut sets = Vec::new();
/// for points in 1..=10 {
///     sets.push(Moments::from_points(&vec![[0.5, 0.0, 2.0]; points])?);
/// }
/// let card = card_write(&sets)?;
///
/// let groups = card.chunks_exact(GROUP * MOMENTS);
/// let shorter = groups.remainder().iter().step_by(MOMENTS);
/// let counts: Vec<f64> = groups.flat_map(|group| &group[..GROUP]).chain(shorter).copied().collect();
/// assert_eq!(counts, [1.0, 2.0, 3.0, 4.0, 5.0, 6.0, 7.0, 8.0, 9.0, 10.0]);
/// # Ok(())
/// # }
/// ```
pub fn card_write(sets: &[Moments]) -> Result<Vec<f64>, Refusal> {
    let numbers = Moments::flattened(sets);
    let mut card = vec![0.0; numbers.len()];
    slices::card_write(numbers, &mut card)?;
    Ok(card)
}

/// The sets that a card stores: the inverse of [`card_write`], bit for bit in both directions.
///
/// Any whole records are a card. That these numbers were written by [`card_write`], and not as a list in record order, is for
/// the file to say.
///
/// # Errors
///
/// [`Refusal::Length`] for numbers that are not whole records of [`MOMENTS`], and for more than
/// [`MAX_RECORDS`](crate::MAX_RECORDS) records.
///
/// # Examples
///
/// ```
/// use maghnelt::{card_read, card_write, Moments, Refusal};
///
/// # fn main() -> Result<(), Refusal> {
/// let sets = [Moments::from_points(&[[1.0, 2.0, 3.0]])?; 9];
/// let card = card_write(&sets)?;
/// assert_eq!(card_read(&card)?, sets);
///
/// assert_eq!(card_read(&[])?, []);
/// assert_eq!(card_read(&card[1..]), Err(Refusal::Length));
/// # Ok(())
/// # }
/// ```
pub fn card_read(card: &[f64]) -> Result<Vec<Moments>, Refusal> {
    // Numbers behind the last whole record find no place, and the library refuses the different lengths.
    let mut records = vec![[0.0; MOMENTS]; card.len() / MOMENTS];
    slices::card_read(card, records.as_flattened_mut())?;
    Ok(records.into_iter().map(Moments::from).collect())
}
