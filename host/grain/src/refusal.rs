use std::error::Error;
use std::fmt;
use std::num::NonZeroU32;

/// Declares the refusals, each in one row: its name, its number in the C interface, the question that was failed, and what must hold instead.
macro_rules! refusals {
    ($($name:ident $number:literal $question:literal $words:literal)*) => {
        /// The first question that a call's arguments failed. A refused call has changed nothing.
        ///
        /// ```
        /// use grain::{Refusal, plane_sigma16};
        ///
        /// let refused = plane_sigma16(&[256], &[0], 1, 1, 8).unwrap_err();
        /// assert_eq!(refused, Refusal::SampleAboveDepth);
        /// assert_eq!(refused.number(), 6);
        /// assert_eq!(refused.to_string(), "every sample must be below 2^depth (question 6)");
        /// ```
        #[derive(Debug, Clone, Copy, PartialEq, Eq, Hash)]
        #[non_exhaustive]
        pub enum Refusal {
            $(#[doc = $question] $name,)*
            /// A number that has no name here: libgrain.a is newer than this crate.
            Unknown(u32),
        }

        impl Refusal {
            /// Every refusal that has a name, in the order in which the questions are asked.
            pub const ALL: &'static [Refusal] = &[$(Refusal::$name),*];

            /// As the C interface has it.
            pub const fn number(self) -> u32 {
                match self {
                    $(Refusal::$name => $number,)*
                    Refusal::Unknown(number) => number,
                }
            }

            /// The question, to which the answer was no.
            pub const fn question(self) -> &'static str {
                match self {
                    $(Refusal::$name => $question,)*
                    Refusal::Unknown(_) => {
                        "Does the call pass a question of libgrain.a that this crate has no words for?"
                    }
                }
            }
        }

        impl fmt::Display for Refusal {
            fn fmt(&self, f: &mut fmt::Formatter<'_>) -> fmt::Result {
                let words = match self {
                    $(Refusal::$name => $words,)*
                    Refusal::Unknown(_) => "libgrain.a refuses the call for a reason that this crate has no words for",
                };
                write!(f, "{words} (question {})", self.number())
            }
        }

        impl From<NonZeroU32> for Refusal {
            fn from(number: NonZeroU32) -> Self {
                match number.get() {
                    $($number => Refusal::$name,)*
                    number => Refusal::Unknown(number),
                }
            }
        }
    };
}

refusals! {
    SideAbove4096 1 "Are width and height each at most 4,096?"
        "width and height must each be at most 4,096"
    EmptyFrame 2 "In a frame call (profile, fit, chroma correlation, gate, frame denoise), are both at least 1?"
        "width and height must each be at least 1"
    Depth 3 "Is the depth 8, 10 or 12?"
        "the depth must be 8, 10 or 12 bits"
    Format 4 "Is the format 0 to 3?"
        "the format must be monochrome, 4:2:0, 4:2:2 or 4:4:4"
    ActiveRectangle 12 "In a frame call, does the active rectangle hold a sample, lie in the frame, and start at an even place in a direction that the format halves?"
        "the active rectangle must hold a sample, lie in the frame, and start at an even place where the format halves"
    PlaneLength 5 "Has every lent plane, destinations included, exactly its number of samples?"
        "every plane must have as many samples as its size says"
    SampleAboveDepth 6 "In a call with a depth, is every source and denoised sample below 2^depth?"
        "every sample must be below 2^depth"
    LagAbove3 7 "Is a fit's lag at most 3?"
        "the lag must be at most 3"
    SolverOrder 8 "Is the solver's order 1 to 25?"
        "the order must be 1 to 25"
    RegisterBits 9 "Is the register asked for at most 16 bits?"
        "the register gives at most 16 bits at once"
    HeaderField 10 "Is every field of a header's record as the syntax and its semantics let it be?"
        "every field of the record must keep its limits, fit its bits, and be as after a reset where the syntax skips it"
    HeaderRoom 11 "Has the destination a byte for every eight bits begun?"
        "the destination must have a byte for every eight bits begun, 154 at most"
}

impl Error for Refusal {}

/// What the number of a call's answer says: 0 is accepted.
pub(crate) fn accepted(number: u32) -> Result<(), Refusal> {
    match NonZeroU32::new(number) {
        None => Ok(()),
        Some(number) => Err(number.into()),
    }
}
