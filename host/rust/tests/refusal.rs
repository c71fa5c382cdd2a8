//! The reasons: their numbers and what is printed.

use maghnelt::{Moments, Refusal, MAX_POINTS};
use std::error::Error;

/// Every reason, in the order of the numbers, with a word of its text.
const REASONS: [(Refusal, &str); 15] = [
    (Refusal::Dof, "dof"),
    (Refusal::EmptyList, "empty"),
    (Refusal::Length, "length"),
    (Refusal::FrameCount, "at or below 0"),
    (Refusal::TotalCount, "below 3"),
    (Refusal::NotFinite, "not finite"),
    (Refusal::Sigma, "sigma"),
    (Refusal::Actions, "120"),
    (Refusal::MapWord, "map word"),
    (Refusal::Segment, "Hessian"),
    (Refusal::Normal, "1e-12"),
    (Refusal::Variance, "variance"),
    (Refusal::FixedCount, "is below 0"),
    (Refusal::Transform, "transform has"),
    (Refusal::Saturated, "2^53"),
];

#[test]
fn reasons_are_numbered_from_1_on() {
    let numbers = REASONS.map(|(refusal, _)| refusal.number());
    assert_eq!(numbers, [1, 2, 3, 4, 5, 6, 7, 8, 9, 10, 11, 12, 13, 14, 15]);
}

#[test]
fn number_and_text_are_printed() {
    for (refusal, word) in REASONS {
        let printed = refusal.to_string();
        assert!(printed.starts_with(&format!("reason {}: ", refusal.number())));
        assert!(printed.contains(word), "{printed}");
    }
}

#[test]
fn a_caller_may_hand_a_refusal_on_with_any_other_error() {
    fn too_many() -> Result<Moments, Box<dyn Error>> {
        Ok(Moments::from_points(&vec![[0.0; 3]; MAX_POINTS + 1])?)
    }
    let error = too_many().unwrap_err();
    assert_eq!(error.downcast_ref::<Refusal>(), Some(&Refusal::Length));
}
