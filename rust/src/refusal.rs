//! The refusals by name and number, and the errors of the jobs.

use std::error::Error;
use std::fmt::{self, Display, Formatter};

/// Why a job was refused. Each has a number and a name, the same in every form of the library.
#[derive(Clone, Copy, Debug, PartialEq, Eq, Hash)]
pub enum Refusal {
    /// 1: over the stream limit of 16,777,216 bytes, place 0.
    TooLarge,
    /// 2: a field passes the end.
    CutShort,
    /// 3: a kind that is not 0 to 17, 21 or 22.
    UnknownKind,
    /// 4: record kinds 2, 3, 21 and 22, array types 3, 4 and 5.
    NotTaken,
    /// 5: a taken kind that is not allowed here.
    WrongPlace,
    /// 6: a version that is not 1, 0.
    BadVersion,
    /// 7: a length prefix that breaks its rule; lenient, a fifth byte over 7.
    BadLength,
    /// 8: text that is not UTF-8.
    BadText,
    /// 9: a negative count, 0 in kind 14, a wrong rank, a product or run that is too large.
    BadCount,
    /// 10: a type byte, an array type over 5, a primitive code.
    BadType,
    /// 11: a Boolean, Char, Decimal or DateTime.
    BadValue,
    /// 12: an id that breaks its sign rule or was used before.
    BadId,
    /// 13: a library that is not defined earlier.
    NoLibrary,
    /// 14: a class that is not defined earlier.
    NoClass,
    /// 15: a 65th open object.
    TooDeep,
    /// 16: no whole row is left in the table.
    NoRoom,
    /// 17: bytes after the end, place of the first.
    Trailing,
    /// 18: RootId names no object, place 0.
    NoRoot,
    /// 19: a reference without a target, the lowest one.
    NoObject,
    /// 20: the tidy copy is longer than the output or the stream limit. [`TidyError::OutFull`] carries the length that it needs.
    OutFull,
    /// 21: the row has no text, or it is padded and was asked for in strict. Ask with the setting with which the list was read.
    NoSuchRow,
    /// 22: an entry of the class book that is cut short or has a bad first byte, prefix, text, type or code. Its place is counted in the book.
    BadBook,
    /// A number that is none of these. The library of this version answers none; one of another version may.
    Unknown(u32),
}

impl Refusal {
    /// The 22 refusals that have a name, in the order of their numbers.
    pub const NAMED: [Refusal; 22] = [
        Refusal::TooLarge,
        Refusal::CutShort,
        Refusal::UnknownKind,
        Refusal::NotTaken,
        Refusal::WrongPlace,
        Refusal::BadVersion,
        Refusal::BadLength,
        Refusal::BadText,
        Refusal::BadCount,
        Refusal::BadType,
        Refusal::BadValue,
        Refusal::BadId,
        Refusal::NoLibrary,
        Refusal::NoClass,
        Refusal::TooDeep,
        Refusal::NoRoom,
        Refusal::Trailing,
        Refusal::NoRoot,
        Refusal::NoObject,
        Refusal::OutFull,
        Refusal::NoSuchRow,
        Refusal::BadBook,
    ];

    /// The refusal with this number; [`Refusal::Unknown`] where no refusal has it, 0 included.
    pub fn from_number(number: u32) -> Refusal {
        let place = (number as usize).wrapping_sub(1);
        Refusal::NAMED.get(place).copied().unwrap_or(Refusal::Unknown(number))
    }

    /// Its number, 1 to 22; of an unknown one the number that came back.
    pub fn number(self) -> u32 {
        match self {
            Refusal::TooLarge => 1,
            Refusal::CutShort => 2,
            Refusal::UnknownKind => 3,
            Refusal::NotTaken => 4,
            Refusal::WrongPlace => 5,
            Refusal::BadVersion => 6,
            Refusal::BadLength => 7,
            Refusal::BadText => 8,
            Refusal::BadCount => 9,
            Refusal::BadType => 10,
            Refusal::BadValue => 11,
            Refusal::BadId => 12,
            Refusal::NoLibrary => 13,
            Refusal::NoClass => 14,
            Refusal::TooDeep => 15,
            Refusal::NoRoom => 16,
            Refusal::Trailing => 17,
            Refusal::NoRoot => 18,
            Refusal::NoObject => 19,
            Refusal::OutFull => 20,
            Refusal::NoSuchRow => 21,
            Refusal::BadBook => 22,
            Refusal::Unknown(number) => number,
        }
    }

    /// Its name, as in `CUT SHORT`.
    pub fn name(self) -> &'static str {
        match self {
            Refusal::TooLarge => "TOO LARGE",
            Refusal::CutShort => "CUT SHORT",
            Refusal::UnknownKind => "UNKNOWN KIND",
            Refusal::NotTaken => "NOT TAKEN",
            Refusal::WrongPlace => "WRONG PLACE",
            Refusal::BadVersion => "BAD VERSION",
            Refusal::BadLength => "BAD LENGTH",
            Refusal::BadText => "BAD TEXT",
            Refusal::BadCount => "BAD COUNT",
            Refusal::BadType => "BAD TYPE",
            Refusal::BadValue => "BAD VALUE",
            Refusal::BadId => "BAD ID",
            Refusal::NoLibrary => "NO LIBRARY",
            Refusal::NoClass => "NO CLASS",
            Refusal::TooDeep => "TOO DEEP",
            Refusal::NoRoom => "NO ROOM",
            Refusal::Trailing => "TRAILING",
            Refusal::NoRoot => "NO ROOT",
            Refusal::NoObject => "NO OBJECT",
            Refusal::OutFull => "OUT FULL",
            Refusal::NoSuchRow => "NO SUCH ROW",
            Refusal::BadBook => "BAD BOOK",
            Refusal::Unknown(_) => "UNKNOWN",
        }
    }
}

/// The number and the name: `2 CUT SHORT`.
impl Display for Refusal {
    fn fmt(&self, f: &mut Formatter<'_>) -> fmt::Result {
        write!(f, "{} {}", self.number(), self.name())
    }
}

impl Error for Refusal {}

/// A refused reading: the refusal and its place, an offset in the stream or, of [`Refusal::BadBook`], in the class book.
#[derive(Clone, Copy, Debug, PartialEq, Eq, Hash)]
pub struct Refused {
    /// Its name and number.
    pub refusal: Refusal,
    /// The first byte of the record or member value that was being read, or as the refusal says.
    pub place: usize,
}

/// `2 CUT SHORT at 27`, and `22 BAD BOOK at 11 of the book`.
impl Display for Refused {
    fn fmt(&self, f: &mut Formatter<'_>) -> fmt::Result {
        let of_what = if self.refusal == Refusal::BadBook { " of the book" } else { "" };
        write!(f, "{} at {}{of_what}", self.refusal, self.place)
    }
}

impl Error for Refused {}

/// Why there is no tidy copy.
#[derive(Clone, Copy, Debug, PartialEq, Eq, Hash)]
pub enum TidyError {
    /// The reading of the list is refused.
    Refused(Refused),
    /// 20: the copy is longer than the output or the stream limit, and would have this length.
    OutFull {
        /// The length of the whole copy.
        needed: usize,
    },
}

impl TidyError {
    /// The refusal by name and number, 20 with a full output.
    pub fn refusal(&self) -> Refusal {
        match self {
            TidyError::Refused(refused) => refused.refusal,
            TidyError::OutFull { .. } => Refusal::OutFull,
        }
    }

    /// The place of the refusal, 0 with a full output.
    pub fn place(&self) -> usize {
        match self {
            TidyError::Refused(refused) => refused.place,
            TidyError::OutFull { .. } => 0,
        }
    }
}

impl Display for TidyError {
    fn fmt(&self, f: &mut Formatter<'_>) -> fmt::Result {
        match self {
            TidyError::Refused(refused) => refused.fmt(f),
            TidyError::OutFull { needed } => {
                write!(f, "{}, {needed} bytes are needed", Refusal::OutFull)
            }
        }
    }
}

impl Error for TidyError {}

/// The list that a comparing could not copy.
#[derive(Clone, Copy, Debug, PartialEq, Eq, Hash)]
pub enum List {
    /// 1.
    First,
    /// 2.
    Second,
    /// A number that is neither 1 nor 2. The library of this version answers none.
    Unknown(u64),
}

/// Two lists that were not compared: the first of them that has no tidy copy, and why.
#[derive(Clone, Copy, Debug, PartialEq, Eq, Hash)]
pub struct NotCompared {
    /// Which of the two.
    pub list: List,
    /// What its tidying answered.
    pub error: TidyError,
}

impl Display for NotCompared {
    fn fmt(&self, f: &mut Formatter<'_>) -> fmt::Result {
        match self.list {
            List::First => write!(f, "the first list: {}", self.error),
            List::Second => write!(f, "the second list: {}", self.error),
            List::Unknown(number) => write!(f, "list {number}: {}", self.error),
        }
    }
}

impl Error for NotCompared {}
