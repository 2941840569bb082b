//! The public jobs of Strelinga for Rust: read a parts list into a table of rows, say whether a row has text, show that text, write the tidy
//! copy, and say whether two lists say the same.
//!
//! The jobs are proved; this crate only calls them, and nothing proves the calls. Everything is lent by the caller: a table is 32-bit words,
//! eight to a row, an output is bytes. Any bytes and any sizes are taken, none at all too. Nothing is allocated, nothing is kept after a
//! call, and nothing is shared, so calls on separate memory may run at once. A [`Setting`] says which length prefixes are taken, and a class book
//! gives the types of classes that are written without; no bytes are an empty book, which is always good.
//!
//! ```no_run
//! # use strelinga::Setting;
//! # fn main() -> Result<(), strelinga::Refused> {
//! # let stream = Vec::new();
//! let mut table = vec![0; strelinga::ROW_WORDS * stream.len()];
//! let setting = Setting::Strict; // ask for texts with the setting with which the list was read
//! let count = strelinga::read(&stream, &[], &mut table, setting)?;
//! for (number, row) in strelinga::rows(&table).enumerate() {
//!     if let Some(text) = strelinga::text(&stream, &table, number, setting) {
//!         println!("row {number} at {}: {}", row.offset(), String::from_utf8_lossy(text));
//!     }
//! }
//! # Ok(())
//! # }
//! ```
#![deny(unsafe_code, missing_docs)]

#[cfg(not(target_pointer_width = "64"))]
compile_error!("the library of the proved jobs is for processors of 64 bits");

mod calls;
mod refusal;
mod row;

use calls::Reply;
pub use refusal::{List, NotCompared, Refusal, Refused, TidyError};
pub use row::{rows, Row, RowKind, ROW_WORDS};

/// The most bytes that a stream may have; a longer one is refused with [`Refusal::TooLarge`].
pub const STREAM_LIMIT: usize = 16_777_216;

/// Which prefixes the lengths of names, texts and Decimals may have.
#[derive(Clone, Copy, Debug, PartialEq, Eq, Hash)]
pub enum Setting {
    /// The shortest alone.
    Strict,
    /// Any of at most 5 bytes whose fifth is at most 7: 84 00 is 4, as 04 is.
    Lenient,
}

impl Setting {
    fn number(self) -> u32 {
        match self {
            Setting::Strict => 0,
            Setting::Lenient => 1,
        }
    }
}

/// Reads a stream into a table of rows and answers how many there are. The words after the last row are 0; after a refusal all are. An end
/// word counts the prefix as it is written. The class book is judged first: a bad entry is [`Refusal::BadBook`], at its place in the book.
pub fn read(
    stream: &[u8],
    book: &[u8],
    table: &mut [u32],
    setting: Setting,
) -> Result<usize, Refused> {
    let reply = calls::read(stream, book, table, setting);
    match reply.number {
        0 => Ok(reply.value as usize),
        _ => Err(refused(&reply)),
    }
}

/// Whether a row has text: its kind is 6, and a whole string record starts at its offset and ends at its end word. Else it is refused with
/// [`Refusal::NoSuchRow`]. Rows are numbered from 0. Stream and table may be any. The setting is the question's own, whatever the table was
/// read with: strict, a row of a padded text has none. So ask with the setting with which the list was read.
pub fn row_question(
    stream: &[u8],
    table: &[u32],
    row: usize,
    setting: Setting,
) -> Result<(), Refusal> {
    match calls::row_question(stream, table, row as u64, setting) {
        0 => Ok(()),
        number => Err(Refusal::from_number(number)),
    }
}

/// The text of a row, a part of the stream; none where the row question is refused. An empty text is `Some` and empty. It is UTF-8.
pub fn text<'s>(stream: &'s [u8], table: &[u32], row: usize, setting: Setting) -> Option<&'s [u8]> {
    let (number, from, length) = calls::text_view(stream, table, row as u64, setting);
    if number != 0 {
        return None;
    }
    let from = from as usize;
    stream.get(from..from.checked_add(length as usize)?)
}

/// Writes the tidy copy of a stream to the front of the output and answers how long it is. The rest of the output is untouched, and the table
/// is the reading of the stream. After a refusal the table is all zero and the output unchanged. The copy has the shortest prefixes under
/// either setting.
pub fn tidy(
    stream: &[u8],
    book: &[u8],
    table: &mut [u32],
    out: &mut [u8],
    setting: Setting,
) -> Result<usize, TidyError> {
    let reply = calls::tidy(stream, book, table, out, setting);
    match reply.number {
        0 => Ok(reply.value as usize),
        _ => Err(not_tidied(&reply)),
    }
}

/// Whether two lists say the same. The tidy copies go to the fronts of `first` and `second`, and the table serves both readings, the second
/// last. Where the first list has no copy the second is not looked at, and the second output is unchanged. Each list has a class book and
/// a setting of its own.
#[allow(clippy::too_many_arguments)]
pub fn say_the_same(
    a: &[u8],
    a_book: &[u8],
    b: &[u8],
    b_book: &[u8],
    table: &mut [u32],
    first: &mut [u8],
    second: &mut [u8],
    a_setting: Setting,
    b_setting: Setting,
) -> Result<bool, NotCompared> {
    let settings = [a_setting, b_setting];
    let answer = calls::say_the_same([a, a_book], [b, b_book], table, first, second, settings);
    match answer.reply.number {
        0 => Ok(answer.same != 0),
        _ => Err(NotCompared { list: list(answer.list), error: not_tidied(&answer.reply) }),
    }
}

fn refused(reply: &Reply) -> Refused {
    Refused { refusal: Refusal::from_number(reply.number), place: reply.place as usize }
}

fn not_tidied(reply: &Reply) -> TidyError {
    match Refusal::from_number(reply.number) {
        Refusal::OutFull => TidyError::OutFull { needed: reply.value as usize },
        _ => TidyError::Refused(refused(reply)),
    }
}

fn list(number: u64) -> List {
    match number {
        1 => List::First,
        2 => List::Second,
        _ => List::Unknown(number),
    }
}
