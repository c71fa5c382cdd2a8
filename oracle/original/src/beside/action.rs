//! Beside the original's text of action.rs: the numbers of an action.

use super::{cached_action, Action};
use apex_manifolds::LieGroup;

/// The 120 numbers of an action: A, b, the columns at the origin, those of each axis.
pub(crate) fn numbers((a, b, columns): &Action) -> Vec<f64> {
    let mut numbers = [a.as_slice(), b.as_slice(), columns.origin.as_slice()].concat();
    for axis in &columns.axes {
        numbers.extend(axis.as_slice());
    }
    numbers
}

/// The action of a state, as the factors get it.
pub fn of_state<G: LieGroup + 'static>(params: &[f64]) -> Vec<f64> {
    numbers(&cached_action::<G>(params))
}
