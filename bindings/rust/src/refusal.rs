//! What can go wrong with a call: it is refused, or the library answers what nobody expected.

use std::fmt;

macro_rules! refusals {
    ($($name:ident = $number:literal, $words:literal, $about:literal;)*) => {
        /// Why a call was refused, by the number that the map gives. A refused call changes nothing.
        ///
        /// ```
        /// use mavelino::Refusal;
        /// let refusal = Refusal::of(9).unwrap();
        /// assert_eq!(refusal, Refusal::OverLimit);
        /// assert_eq!(refusal.number(), 9);
        /// assert_eq!(refusal.to_string(), "more runs than its limit");
        /// ```
        #[derive(Clone, Copy, Debug, PartialEq, Eq, Hash, PartialOrd, Ord)]
        #[non_exhaustive]
        #[repr(u8)]
        pub enum Refusal {
            $(#[doc = concat!(stringify!($number), ": ", $words, $about)] $name = $number,)*
        }

        impl Refusal {
            /// Every refusal, by its number.
            pub const ALL: &'static [Refusal] = &[$(Refusal::$name),*];

            /// What it says, in the words of the console's page.
            pub const fn words(self) -> &'static str {
                match self {
                    $(Refusal::$name => $words,)*
                }
            }
        }
    };
}

refusals! {
    NoSuchTank = 1, "no such tank", ".";
    BrokenRule = 2, "shares and limits that break the rule", ".";
    Empty = 3, "an empty range, or a 0 where none may be", ".";
    PastEnd = 4, "past the end of the tank", ".";
    TooLong = 5, "longer than 2^63 - 1 positions", ".";
    NotANumber = 6, "a value that is no number", ": a NaN.";
    OtherContent = 7, "its identity has another value, flags or cnt", ".";
    NoRoomForMark = 8, "no room for one more mark of its party", ".";
    OverLimit = 9, "more runs than its limit", ".";
    OverPool = 10, "more runs than the tanks can share", ".";
    LittleRoom = 11, "less room than the answer takes", ". This crate always lends enough.";
    BadSettings = 12, "a settings text with a bad line", ".";
    BadLine = 13, "a log or a saved text with a bad line", ".";
    BadFlags = 14, "flags that no type makes", ".";
    BadPlan = 15, "a bad range in a plan, or too many runs left", ".";
    PlantsWork = 16, "the plant's work, tried by the laboratory", ".";
    OverShare = 17, "more runs than the share, by the laboratory", ".";
    Retired = 18, "a type that is retired", ": Before, 0x82.";
}

impl Refusal {
    /// The refusal of a number, if there is one.
    pub fn of(number: u64) -> Option<Refusal> {
        Refusal::ALL.iter().copied().find(|refusal| refusal.number() == number)
    }

    /// Its number.
    pub const fn number(self) -> u64 {
        self as u64
    }
}

impl fmt::Display for Refusal {
    fn fmt(&self, f: &mut fmt::Formatter<'_>) -> fmt::Result {
        f.write_str(self.words())
    }
}

/// Why a call has no answer.
///
/// ```
/// use mavelino::{Error, Map, Refusal};
/// let map = Map::open(Map::EVEN)?;
/// let error = map.length(8).unwrap_err();
/// assert_eq!(error.refusal(), Some(Refusal::NoSuchTank));
/// assert_eq!(error.to_string(), "refused by 1: no such tank");
/// # Ok::<(), Error>(())
/// ```
#[derive(Clone, Debug, PartialEq, Eq)]
#[non_exhaustive]
pub enum Error {
    /// The call was refused, and nothing changed.
    Refused(Refusal),
    /// A text was refused at its first wrong line, counted from 1, and nothing changed.
    RefusedAt(Refusal, u64),
    /// The answers are longer than one crossing brings, 262,144 bytes, and nothing was done: make it
    /// several batches.
    TooMuch,
    /// The library answered what this crate does not know, and the map stayed as it was. Then the
    /// library and the crate are not of one tree.
    Surprise(Surprise),
}

impl Error {
    /// The refusal, where it is one.
    pub fn refusal(&self) -> Option<Refusal> {
        match self {
            Error::Refused(refusal) | Error::RefusedAt(refusal, _) => Some(*refusal),
            _ => None,
        }
    }
}

impl fmt::Display for Error {
    fn fmt(&self, f: &mut fmt::Formatter<'_>) -> fmt::Result {
        match self {
            Error::Refused(why) => write!(f, "refused by {}: {why}", why.number()),
            Error::RefusedAt(why, line) => {
                write!(f, "refused by {} at line {line}: {why}", why.number())
            }
            Error::TooMuch => f.write_str("more answers than one crossing brings"),
            Error::Surprise(surprise) => surprise.fmt(f),
        }
    }
}

impl std::error::Error for Error {}

impl From<Surprise> for Error {
    fn from(surprise: Surprise) -> Self {
        Error::Surprise(surprise)
    }
}

/// What was expected of the library, and what came.
#[derive(Clone, Debug, PartialEq, Eq)]
pub struct Surprise {
    /// What the protocol has there.
    pub expected: String,
    /// The line that came, or what else did.
    pub came: String,
}

impl fmt::Display for Surprise {
    fn fmt(&self, f: &mut fmt::Formatter<'_>) -> fmt::Result {
        write!(f, "the library should have answered {}, and answered {}", self.expected, self.came)
    }
}
