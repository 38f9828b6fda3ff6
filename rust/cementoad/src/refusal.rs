//! The numbered refusals.

use std::error::Error;
use std::fmt;

use crate::ffi;

/// Makes `Refusal` of its table: number, case, name and what it says.
macro_rules! refusals {
    ($(($number:literal, $case:ident, $name:literal, $sentence:literal);)*) => {
        /// Why something was refused, by the paper's number. Where several apply, it is the first in the order of the
        /// checks. Later versions may know more.
        ///
        /// ```
        /// use cementoad::Refusal;
        ///
        /// let refusal = Refusal::RateOutside;
        /// assert_eq!(refusal.number(), 6);
        /// assert_eq!(refusal.public_name(), "INVALID_ARGS");
        /// assert_eq!(refusal.to_string(), "refusal 6: a rate lies outside -1000..1000");
        /// assert_eq!(Refusal::try_from(6), Ok(refusal));
        /// ```
        #[repr(u8)]
        #[non_exhaustive]
        #[derive(Clone, Copy, Debug, PartialEq, Eq, Hash)]
        pub enum Refusal {
            $(#[doc = concat!("Refusal ", $number, ", `", $name, "`: ", $sentence, ".")] $case = $number,)*
        }

        impl Refusal {
            /// All refusals, in the order of their numbers.
            pub const ALL: &[Refusal] = &[$(Refusal::$case),*];

            /// The refusal's own name, as in the C header without its prefix.
            pub const fn name(self) -> &'static str {
                match self {
                    $(Refusal::$case => $name,)*
                }
            }

            const fn sentence(self) -> &'static str {
                match self {
                    $(Refusal::$case => $sentence,)*
                }
            }
        }

        impl TryFrom<u8> for Refusal {
            type Error = UnknownRefusal;

            fn try_from(number: u8) -> Result<Refusal, UnknownRefusal> {
                match number {
                    $($number => Ok(Refusal::$case),)*
                    _ => Err(UnknownRefusal(number)),
                }
            }
        }
    };
}

refusals! {
    (1, NowOutside, "NOW_OUTSIDE", "now lies outside 0..END");
    (2, NowEarly, "NOW_EARLY", "now lies before the clock's latest time");
    (3, WordWrong, "WORD_WRONG", "a bit is set that must be zero, or a version isn't known");
    (4, NothingFlagged, "NOTHING_FLAGGED", "no argument is flagged");
    (5, ValueOutside, "VALUE_OUTSIDE", "a time or a value lies outside its range");
    (6, RateOutside, "RATE_OUTSIDE", "a rate lies outside -1000..1000");
    (7, ReferenceAlone, "REFERENCE_ALONE", "a reference comes with neither a value nor a rate");
    (8, NotStarted, "NOT_STARTED", "the clock isn't started, and what is asked needs one that is");
    (9, ContinuousReference, "CONTINUOUS_REFERENCE", "a continuous clock is handed a reference, at its start or later");
    (10, ContinuousSet, "CONTINUOUS_SET", "a continuous clock that runs is to be set");
    (11, MonotonicSetAndRate, "MONOTONIC_SET_AND_RATE",
        "a monotonic clock that runs is handed a value and a rate at once");
    (12, LineOutside, "LINE_OUTSIDE", "a line's value lies outside 0..END where it begins, or above END at now");
    (13, BelowBackstop, "BELOW_BACKSTOP", "the clock would show less than its backstop");
    (14, MonotonicBack, "MONOTONIC_BACK", "a monotonic clock that runs would show less than it does");
    (15, ContinuousNotMonotonic, "CONTINUOUS_NOT_MONOTONIC", "a new clock is to be continuous without being monotonic");
    (16, BackstopOutside, "BACKSTOP_OUTSIDE", "a new clock's backstop lies outside 0..END");
    (17, BackstopAhead, "BACKSTOP_AHEAD", "a new clock is to start at once, with its backstop ahead of now");
    (18, TooShort, "TOO_SHORT", "there are fewer bytes than what is read calls for");
    (19, PaddingSet, "PADDING_SET", "a padding bit is set");
    (20, BytesLeftOver, "BYTES_LEFT_OVER", "bytes follow what is read");
    (21, BufferShort, "BUFFER_SHORT", "the buffer is too short for what is written");
    (22, RateStep, "RATE_STEP", "a clock that runs is handed a rate more than 200 from its own");
    (31, VersionNeedless, "VERSION_NEEDLESS", "a slip has version 3, though version 2 would hold it");
}

impl Refusal {
    /// The paper's number, 1 to 22 or 31.
    pub const fn number(self) -> u8 {
        self as u8
    }

    /// The public name: `INVALID_ARGS` for 3 to 17, their own name for the others.
    pub const fn public_name(self) -> &'static str {
        match self.number() {
            3..=17 => "INVALID_ARGS",
            _ => self.name(),
        }
    }
}

impl fmt::Display for Refusal {
    fn fmt(&self, f: &mut fmt::Formatter<'_>) -> fmt::Result {
        write!(f, "refusal {}: {}", self.number(), self.sentence())
    }
}

impl Error for Refusal {}

/// A number that is none of these refusals: 0, 23 to 30, or one above 31.
#[derive(Clone, Copy, Debug, PartialEq, Eq, Hash)]
pub struct UnknownRefusal(
    /// The number.
    pub u8,
);

impl fmt::Display for UnknownRefusal {
    fn fmt(&self, f: &mut fmt::Formatter<'_>) -> fmt::Result {
        write!(f, "{} is not the number of a refusal", self.0)
    }
}

impl Error for UnknownRefusal {}

/// Turns the number in an answer of the archive into a result.
///
/// # Panics
/// For a number that is neither 0 nor one of the paper's. The archive has none for what this crate hands in: 255 (not a
/// clock) is for what no `Clock` holds. Such a number means that archive and crate don't belong together, and no
/// answer can be trusted then. A case of its own in `Refusal` would ask every caller to handle what can't be handled.
pub(crate) fn check(number: u8) -> Result<(), Refusal> {
    match number {
        ffi::NO_REFUSAL => Ok(()),
        _ => Err(Refusal::try_from(number).expect("the archive answers a refusal of the paper")),
    }
}

#[cfg(test)]
mod tests {
    use super::*;

    #[test]
    fn zero_is_no_refusal() {
        assert_eq!(check(ffi::NO_REFUSAL), Ok(()));
    }

    #[test]
    #[should_panic(expected = "UnknownRefusal(255)")]
    fn no_clock_is_not_a_clock() {
        let _ = check(ffi::NOT_A_CLOCK);
    }
}
