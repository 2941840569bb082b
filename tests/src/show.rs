//! What goes to the proved comparing programs for one stream, and the line that
//! a right reader or tidier sends back.

use crate::corpus::refused;
use crate::fast;
use crate::reader::{read, Refusal, Reply, Setting, Terms};
use crate::tidy::tidy;

/// What the comparing programs have space for.
pub const MOST_BYTES: usize = 600_000;
pub const MOST_BOOK: usize = 65_536;
pub const MOST_WORDS: usize = 8_192;
pub const MOST_ROOM: usize = 1_000_000;
pub const MOST_STREAMS: usize = 1_000_000;

/// Something else than a reader or a tidier leaves stands in the table and the
/// output before, so that what nobody wrote is seen.
const LITTER_WORD: u32 = 0xA5A5_A5A5;
const LITTER_BYTE: u8 = 0xA5;

/// Two lanes, so that one collision does not hide a difference.
const LANES: [u64; 2] = [65_599, 131_071];
const MODULUS: u64 = 4_294_967_291;

/// Length of the stream, the other sizes, bytes. For reading the other sizes
/// are the words of the table, for tidying also the bytes of the output.
pub fn send(stream: &[u8], others: &[usize], sent: &mut Vec<u8>) {
    for &size in [stream.len()].iter().chain(others) {
        sent.extend_from_slice(&(size as u32).to_le_bytes());
    }
    sent.extend_from_slice(stream);
}

/// The same with the length of a class book as a last size, and the book's bytes
/// behind the stream's.
pub fn send_with_book(stream: &[u8], others: &[usize], book: &[u8], sent: &mut Vec<u8>) {
    send(stream, &[others, &[book.len()]].concat(), sent);
    sent.extend_from_slice(book);
}

/// The words of a table that is lent as it stands.
pub fn send_table(table: &[u32], sent: &mut Vec<u8>) {
    sent.extend(table.iter().flat_map(|word| word.to_le_bytes()));
}

/// What this reader or tidier makes of a stream: its answer in words, the
/// number of rows or the length of the copy, or the number of the refusal, and
/// what is left of the table and the output.
pub struct Found {
    pub setting: Setting,
    pub answer: String,
    pub outcome: Result<usize, u32>,
    pub table: Vec<u32>,
    pub out: Option<Vec<u8>>,
}

/// A table and an output as they are lent.
pub fn littered(words: usize, room: usize) -> (Vec<u32>, Vec<u8>) {
    (vec![LITTER_WORD; words], vec![LITTER_BYTE; room])
}

pub fn found<'b>(stream: &[u8], words: usize, terms: impl Into<Terms<'b>>) -> Found {
    let terms = terms.into();
    found_by(|table| read(stream, table, terms), words, terms.setting)
}

fn found_by(
    read: impl FnOnce(&mut [u32]) -> Result<usize, Refusal>,
    words: usize,
    setting: Setting,
) -> Found {
    let (mut table, _) = littered(words, 0);
    let outcome = read(&mut table);
    let answer = match &outcome {
        Ok(rows) => format!("accepted {rows}"),
        Err(refusal) => refused(refusal),
    };
    let outcome = outcome.map_err(|refusal| refusal.number);
    Found { setting, answer, outcome, table, out: None }
}

pub fn found_tidying<'b>(
    stream: &[u8],
    words: usize,
    room: usize,
    terms: impl Into<Terms<'b>>,
) -> Found {
    let terms = terms.into();
    found_tidying_by(|table, out| tidy(stream, table, out, terms), [words, room], terms.setting)
}

fn found_tidying_by(
    tidy: impl FnOnce(&mut [u32], &mut [u8]) -> Result<usize, Refusal>,
    [words, room]: [usize; 2],
    setting: Setting,
) -> Found {
    let (mut table, mut out) = littered(words, room);
    let outcome = tidy(&mut table, &mut out);
    let answer = match &outcome {
        Ok(length) => written(*length),
        Err(refusal) if is_full(refusal) => format!("full {}", refusal.needed),
        Err(refusal) => refused(refusal),
    };
    let outcome = outcome.map_err(|refusal| refusal.number);
    Found { setting, answer, outcome, table, out: Some(out) }
}

pub fn written(length: usize) -> String {
    format!("written {length}")
}

fn is_full(refusal: &Refusal) -> bool {
    refusal.number == Reply::OutFull as u32
}

impl Found {
    /// What the fast reader or tidier, lent the same, answers or leaves
    /// otherwise.
    pub fn fast_fault(&self, stream: &[u8], book: &[u8]) -> Option<String> {
        let (words, terms) = (self.table.len(), self.setting.with(book));
        let fast = match &self.out {
            None => found_by(|table| fast::read(stream, table, terms), words, self.setting),
            Some(out) => {
                let tidy =
                    |table: &mut [u32], out: &mut [u8]| fast::tidy(stream, table, out, terms);
                found_tidying_by(tidy, [words, out.len()], self.setting)
            }
        };
        if fast.answer != self.answer {
            return Some(format!("fast         {}, not {}", fast.answer, self.answer));
        }
        let word = (0..words).find(|&at| fast.table[at] != self.table[at]);
        let byte = (fast.out != self.out).then_some("the outputs differ");
        let word = word.map(|at| {
            let (fast, clear) = (fast.table[at], self.table[at]);
            format!("fast         word {at} of the table is {fast}, not {clear}")
        });
        word.or(byte.map(|what| format!("fast         {what}")))
    }

    pub fn line(&self) -> String {
        let mut line = format!("{} {}", self.answer, trace(&self.table));
        if let Some(out) = &self.out {
            line += &format!(" {}", byte_trace(out));
        }
        line
    }
}

/// The hash of an output's bytes, each taken as a word.
pub fn byte_trace(out: &[u8]) -> String {
    let words: Vec<u32> = out.iter().map(|&byte| u32::from(byte)).collect();
    trace(&words)
}

/// Two hashes of all words and their places.
pub fn trace(words: &[u32]) -> String {
    let [first, second] = LANES.map(|by| hash(words, by));
    format!("{first} {second}")
}

/// Every word counts, and its place.
fn hash(words: &[u32], by: u64) -> u64 {
    words.iter().fold(0, |hash, &word| (hash * by + u64::from(word) + 1) % MODULUS)
}

#[cfg(test)]
mod tests {
    use super::*;
    use crate::stream::Stream;

    /// System class A with the member x, an Int32.
    const BOOK: &[u8] = b"\0\x01A\x01\x01x\0\x08";

    /// The same and an entry that begins with 2.
    const BAD_BOOK: &[u8] = b"\0\x01A\x01\x01x\0\x08\x02";

    /// The comparing programs' own samples say the same of the form of both
    /// sides.
    #[test]
    fn the_sample_of_the_reading_program() {
        let mut sent = Vec::new();
        let mut lines = String::new();
        let array = Stream::new().objects(1, 3).nulls(3).end().0;
        for (stream, words, book) in
            [(&[][..], 16, &[][..]), (&array, 35, &[]), (&array, 35, BOOK), (&array, 35, BAD_BOOK)]
        {
            send_with_book(stream, &[words], book, &mut sent);
            lines += &(found(stream, words, Setting::Strict.with(book)).line() + "\n");
        }
        assert_eq!(sent, include_bytes!("../../crates/compare/stdin"));
        assert_eq!(lines, include_str!("../../crates/compare/stdout"));
    }

    /// The sizes, the book's length last; the stream, then the book.
    #[test]
    fn a_book_goes_behind_its_stream() {
        let (mut plain, mut sent) = (Vec::new(), Vec::new());
        send(b"stream", &[16, 4, 3], &mut plain);
        send_with_book(b"stream", &[16, 4], b"abc", &mut sent);
        assert_eq!(sent, [plain, b"abc".to_vec()].concat());
    }

    #[test]
    fn the_sample_of_the_tidying_program() {
        let mut sent = Vec::new();
        let mut lines = String::new();
        let array = Stream::rooted(7).objects(7, 3).null().nulls(2).end().0;
        for (stream, words, room, book) in [
            (&[][..], 16, 4, &[][..]),
            (&array, 48, 40, &[]),
            (&array, 43, 29, &[]),
            (&array, 40, 28, &[]),
            (&array, 39, 40, &[]),
            (&array, 48, 40, BOOK),
            (&array, 48, 40, BAD_BOOK),
        ] {
            send_with_book(stream, &[words, room], book, &mut sent);
            let found = found_tidying(stream, words, room, Setting::Strict.with(book));
            lines += &(found.line() + "\n");
        }
        assert_eq!(sent, include_bytes!("../../crates/compare_tidy/stdin"));
        assert_eq!(lines, include_str!("../../crates/compare_tidy/stdout"));
    }
}
