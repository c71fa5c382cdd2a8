//! Why a call was turned away.

use std::error::Error;
use std::fmt;

/// Declares the reasons: each one's number, name and text stand once, for the documentation and for what is printed.
macro_rules! reasons {
    ($(#[$meta:meta])* $($number:literal $name:ident $text:literal)*) => {
        $(#[$meta])*
        pub enum Refusal {
            $(
                #[doc = concat!("Reason ", $number, ": ", $text, ".")]
                $name,
            )*
            /// A reason of a later library, by its number.
            Other(u32),
        }

        impl Refusal {
            /// The reason's number.
            #[must_use]
            pub const fn number(self) -> u32 {
                match self {
                    $(Refusal::$name => $number,)*
                    Refusal::Other(number) => number,
                }
            }

            const fn text(self) -> &'static str {
                match self {
                    $(Refusal::$name => $text,)*
                    Refusal::Other(_) => "one that this version of the crate does not know",
                }
            }

            /// What a call answered: 0 is accepted, any other number the reason why not.
            pub(crate) const fn of_answer(answer: u32) -> Result<(), Refusal> {
                match answer {
                    0 => Ok(()),
                    $($number => Err(Refusal::$name),)*
                    number => Err(Refusal::Other(number)),
                }
            }
        }
    };
}

reasons! {
    /// Why a call was turned away: one of the interface's numbered reasons. A refused call has written nothing.
    ///
    /// # Examples
    ///
    /// ```
    /// use maghnelt::{Plane, Refusal};
    ///
    /// let refusal = Plane::new([0.0, 0.0, 0.0], 1.0).unwrap_err();
    /// assert_eq!(refusal, Refusal::Normal);
    /// assert_eq!(refusal.number(), 11);
    /// assert_eq!(
    ///     refusal.to_string(),
    ///     "reason 11: a plane's normal has a norm that is not finite or not above 1e-12"
    /// );
    /// ```
    #[derive(Clone, Copy, Debug, PartialEq, Eq, Hash)]
    #[non_exhaustive]
    1 Dof "the dof is above 9"
    2 EmptyList "the list of frames, of counts or of matches is empty"
    3 Length "a slice other than the actions has not the length its counts call for, or a limit is passed"
    4 FrameCount "some frame's count (in a bundle, its number of points) is at or below 0"
    5 TotalCount "the frames' counts summed in order, plus the fixed count (in a bundle, numbers of points), are below 3"
    6 NotFinite "a moment of a frame or the fixed set, or a coordinate of a point or a fixed point, is not finite"
    7 Sigma "sigma is not finite and positive"
    8 Actions "the actions are not 120 numbers for each frame (one action, for a match list)"
    9 MapWord "a map word has a bad kind or a bad low part"
    10 Segment "a mapped frame's offset plus dof, or plus its transform's columns, exceeds the order n of the Hessian"
    11 Normal "a plane's normal has a norm that is not finite or not above 1e-12"
    12 Variance "the point-to-plane variance is not finite and positive"
    13 FixedCount "the fixed set's count is below 0 (in a strict build only)"
    14 Transform "a transform has more than 9 columns or not dof rows, or a further one not as many columns as the one it multiplies has rows"
    15 Saturated "the count is at or above 2^53 (in a push), or the exact sum of the two counts is above it (in a merge)"
}

impl fmt::Display for Refusal {
    fn fmt(&self, f: &mut fmt::Formatter<'_>) -> fmt::Result {
        write!(f, "reason {}: {}", self.number(), self.text())
    }
}

impl Error for Refusal {}

#[cfg(test)]
mod tests {
    use super::*;

    #[test]
    fn only_0_is_accepted() {
        assert_eq!(Refusal::of_answer(0), Ok(()));
        assert_eq!(Refusal::of_answer(3), Err(Refusal::Length));
        for answer in [1, 15, 16, u32::MAX] {
            assert_eq!(
                Refusal::of_answer(answer).map_err(Refusal::number),
                Err(answer)
            );
        }
    }

    #[test]
    fn a_reason_of_a_later_library_is_printed_too() {
        let later = Refusal::of_answer(4_000_000_000).unwrap_err();
        assert_eq!(
            later.to_string(),
            "reason 4000000000: one that this version of the crate does not know"
        );
    }
}
