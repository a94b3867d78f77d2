//! Why a call refuses.

use std::{error, fmt};

/// A fault and its place: an offset in bytes of the text from zero; a statement's index for [`Fault::NoSuchStatement`], for the faults of
/// resolving from [`Fault::SecondLet`] to [`Fault::ForcedTwice`] and for those of the profile, from [`Fault::OutsideProfile`] on
/// ([`Refusal::statement`]); and 0 for the others.
#[derive(Debug, Clone, Copy, PartialEq, Eq, Hash)]
pub struct Refusal {
    pub fault: Fault,
    pub place: usize,
}

macro_rules! faults {
    ($($(#[$meta:meta])* $name:ident = $number:literal, $message:literal;)+) => {
        /// The faults of reading, printing, resolving and the profile; `as u32` gives the number.
        #[derive(Debug, Clone, Copy, PartialEq, Eq, Hash)]
        #[non_exhaustive]
        pub enum Fault {
            $(#[doc = $message] $name = $number,)+
        }

        impl Fault {
            fn from_number(number: u64) -> Option<Fault> {
                match number {
                    $($number => Some(Fault::$name),)+
                    _ => None,
                }
            }

            /// What the number means.
            pub fn message(self) -> &'static str {
                match self {
                    $(Fault::$name => $message,)+
                }
            }
        }
    };
}

faults! {
    TextTooLong = 1, "text over 16,384 bytes";
    StrayByte = 2, "byte that starts no token";
    UnexpectedToken = 3, "token not allowed, or end of text";
    NotACount = 4, "count not a whole 32-bit number, or above the ceiling";
    RangeBackwards = 5, "range backwards";
    UnknownKeyword = 6, "unknown keyword";
    NotOptional = 7, "`?` on a feature without it";
    ArgumentNumber = 8, "number of arguments";
    WrongArgument = 9, "argument of a wrong kind, empty array, word in an array of counts, second argument after N, mandatory `*` effect";
    UnknownMode = 10, "unknown mode";
    TooMany = 11, "any token but a separator after 256 statements; a 65th word or number in an array";
    WrongContext = 12, "context not as it must be";
    SecondLet = 13, "second LET of a key";
    UnknownSymbol = 14, "unknown symbol, or one whose template or block is missing";
    NotInModel = 15, "name not in the model";
    WrongKind = 16, "effect against the covariate's kind";
    ForcedTwice = 17, "pair forced by two statements";
    TooLarge = 18, "over 2,048 effects before merging; over 256 ground statements; ground text over 16,384 bytes";
    OutputTooShort = 19, "an output shorter than its answer; a working buffer shorter than the call's stated length";
    NoSuchStatement = 20, "statement index not below the count";
    CeilingTooHigh = 21, "ceiling above 256";
    OutsideProfile = 22, "feature outside the PK-only profile";
    SecondStatement = 23, "second statement of a feature that the PK-only profile has once";
    CountAboveTen = 24, "count above 10, the highest of the PK-only profile";
}

impl Refusal {
    /// The fault's number.
    pub fn number(&self) -> u32 {
        self.fault as u32
    }

    /// The index of the statement that is refused, where the place is one.
    pub fn statement(&self) -> Option<usize> {
        (matches!(self.number(), 13..=17 | 20 | 22..=24)).then_some(self.place)
    }

    /// The line and the column of the place in its text, both from 1, a column a byte. Only where the place is an offset.
    pub fn line_and_column(&self, text: impl AsRef<[u8]>) -> (usize, usize) {
        let text = text.as_ref();
        let before = &text[..self.place.min(text.len())];
        let line = before.iter().filter(|&&byte| byte == b'\n').count() + 1;
        let column = before.iter().rev().take_while(|&&byte| byte != b'\n').count() + 1;
        (line, column)
    }
}

impl fmt::Display for Refusal {
    fn fmt(&self, f: &mut fmt::Formatter<'_>) -> fmt::Result {
        let at = if self.statement().is_some() { "at statement" } else { "at" };
        write!(f, "MFL: {} {at} {}: {}", self.number(), self.place, self.fault.message())
    }
}

impl error::Error for Refusal {}

/// The refusal in a call's answer, if it is one: its number in bits 32 to 39, which are 0 in every other answer, and its place below them.
pub(crate) fn refused(answer: u64) -> Option<Refusal> {
    let (number, place) = (answer >> 32 & 0xff, (answer & 0xffff_ffff) as usize);
    let fault = || Fault::from_number(number).expect("the calls refuse by the numbers above only");
    (number != 0).then(|| Refusal { fault: fault(), place })
}

/// A call's answer: below 2^32, or a refusal's number * 2^32 + its place.
pub(crate) fn answered(answer: u64) -> Result<usize, Refusal> {
    refused(answer).map_or(Ok(answer as usize), Err)
}
