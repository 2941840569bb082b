//! The streams on which the proved reader is compared with this one, some with a
//! class book: made from a seed, written by hand, and real lists.

use crate::books;
use crate::by_hand::{self, Outcome};
use crate::corpus;
use crate::generate::{self, Class, Random};
use crate::padding::{badly_padded, padded};
use crate::reader::{
    read_records, Reply, Setting, Terms, LAST_TICK, OPEN_LIMIT, ROW_WORDS, UNTYPED_TAKEN,
};
use crate::show::MOST_WORDS;
use crate::stream::{Member, Stream};
use std::path::Path;

#[derive(Clone)]
pub struct Case {
    pub what: String,
    pub stream: Vec<u8>,
    /// The class book, mostly without entries.
    pub book: Vec<u8>,
    /// Words of the table.
    pub words: usize,
    /// An output that it is tidied into besides the usual ones.
    pub room: Option<usize>,
    /// Of what is known; the stream is read under both.
    pub setting: Setting,
    pub known: Option<Known>,
    /// Not made here.
    pub is_list: bool,
}

impl Case {
    /// The setting with the case's own book.
    pub fn terms(&self, setting: Setting) -> Terms<'_> {
        setting.with(&self.book)
    }

    /// What is known of the outcome under a setting.
    pub fn known_under(&self, setting: Setting) -> Option<&Known> {
        self.known.as_ref().filter(|_| self.setting == setting)
    }
}

/// What is known of the outcome besides what this reader finds.
#[derive(Clone)]
pub struct Known {
    pub answer: Option<String>,
    /// Hash of the rows, see [`corpus::rows_hash`].
    pub rows: Option<String>,
    /// Of the tidy copy, see [`corpus::copy_note`].
    pub copy: Option<String>,
}

/// What is noted holds where kinds 2 and 3 are taken. Where they are not, nothing
/// is known of a stream that one of them stops.
pub fn held(known: Known, stream: &[u8], terms: Terms) -> Option<Known> {
    let refusal = read_records(stream, usize::MAX, terms).err();
    let not_taken = refusal.filter(|refusal| refusal.number == Reply::NotTaken as u32);
    let stopped = not_taken.is_some_and(|refusal| matches!(stream[refusal.place], 2 | 3));
    (UNTYPED_TAKEN || !stopped).then_some(known)
}

/// Every stream that was written by hand.
pub fn by_hand() -> Vec<Case> {
    by_hand::cases().into_iter().map(hand_written).collect()
}

fn hand_written(case: by_hand::Case) -> Case {
    let answer = match case.reading {
        Outcome::Accepted(rows) => format!("accepted {rows}"),
        Outcome::Refused(number, place) => format!("refused {number} at {place}"),
    };
    let what = format!("by hand: {}", case.what);
    let copy = case.copy.and_then(Result::ok).map(|copy| corpus::copy_note(&copy));
    let known = Some(Known { answer: Some(answer), rows: None, copy });
    let (words, room, setting) = (case.words, Some(case.out), case.setting);
    let by_hand::Case { stream, book, .. } = case;
    Case { what, stream, book, words, room, setting, known, is_list: false }
}

/// Every list of a folder, with what its expected.tsv says.
pub fn lists(folder: &Path) -> Result<Vec<Case>, String> {
    let expected = corpus::expected(folder)?;
    expected.into_iter().map(|(name, outcome)| list(folder, &name, &outcome)).collect()
}

fn list(folder: &Path, name: &str, outcome: &str) -> Result<Case, String> {
    let stream = std::fs::read(folder.join(name)).map_err(|error| format!("{name}: {error}"))?;
    let known = known(outcome).ok_or(format!("{name}: what is {outcome:?}?"))?;
    let (words, setting) = (corpus::ROWS * ROW_WORDS, Setting::Strict);
    let known = held(known, &stream, setting.into());
    let what = format!("list {name}");
    Ok(Case { what, stream, book: Vec::new(), words, room: None, setting, known, is_list: true })
}

/// What an outcome of expected.tsv says of the reading and the copy, whose note
/// begins with its length.
pub fn known(outcome: &str) -> Option<Known> {
    let (reading, tidying) = outcome.split_once(" tidy ")?;
    let is_copy = tidying.starts_with(|first: char| first.is_ascii_digit());
    let copy = is_copy.then(|| tidying.to_string());
    let words: Vec<&str> = reading.split(' ').collect();
    match words[..] {
        ["accepted", rows, hash] => {
            let answer = Some(format!("accepted {rows}"));
            Some(Known { answer, rows: Some(hash.to_string()), copy })
        }
        ["refused", _, "at", _] => {
            Some(Known { answer: Some(reading.to_string()), rows: None, copy })
        }
        _ => None,
    }
}

pub fn from_hex(digits: &str) -> Option<Vec<u8>> {
    let byte = |at| u8::from_str_radix(digits.get(at..at + 2)?, 16).ok();
    (0..digits.len()).step_by(2).map(byte).collect()
}

/// At least `count` streams, the first half valid, lenient where not strict, the
/// other damaged. Some of the damaged ones come from `lists`. With `books` about
/// half of them have a class book, most of these also records of kinds 2 and 3.
pub fn generated(seed: u64, count: usize, lists: &[Case], books: bool) -> Vec<Case> {
    let usual = |list: &&Case| list.stream.len() <= LONGEST_TO_DAMAGE;
    let lists = lists.iter().filter(usual).collect();
    let mut maker = Maker { random: Random::new(seed), lists, books, cases: Vec::new() };
    for _ in 0..count.div_ceil(2) {
        maker.valid();
    }
    if count > 1 {
        maker.cuts();
    }
    while maker.cases.len() < count {
        maker.damaged();
    }
    maker.cases
}

/// Longer lists differ from others in little but the time that they take.
const LONGEST_TO_DAMAGE: usize = 16_384;

/// Open objects past the limit, at most.
const TOO_MANY: usize = 4;

struct Maker<'l> {
    random: Random,
    lists: Vec<&'l Case>,
    books: bool,
    cases: Vec<Case>,
}

/// A stream that is accepted with a book of these entries, and the rows that it
/// needs.
struct Booked {
    stream: Vec<u8>,
    entries: Vec<Class<'static>>,
    rows: usize,
}

impl Booked {
    fn book(&self) -> Vec<u8> {
        books::bytes(&self.entries)
    }
}

impl Maker<'_> {
    /// `rows` are those that the stream needs, or about so many.
    fn push(&mut self, what: &str, stream: Vec<u8>, rows: usize) {
        self.push_with(what, stream, Vec::new(), rows);
    }

    fn push_with(&mut self, what: &str, stream: Vec<u8>, book: Vec<u8>, rows: usize) {
        let words = table_words(rows, &mut self.random);
        self.cases.push(Case {
            what: what.to_string(),
            stream,
            book,
            words,
            room: None,
            setting: Setting::Strict,
            known: None,
            is_list: false,
        });
    }

    fn valid(&mut self) {
        if self.books && self.random.chance(50) {
            return self.valid_with_book();
        }
        match self.random.below(10) {
            0 => {
                let open = 1 + self.random.below(OPEN_LIMIT);
                let (stream, _) = nested(open, false, &mut self.random);
                let rows = rows_of(&stream, &[]);
                self.push("valid, nested", stream, rows);
            }
            1 | 2 => {
                let whole = self.whole();
                let stream = padded(&whole, &[], &mut self.random);
                self.push("valid, padded", stream, rows_of(&whole, &[]));
            }
            _ => {
                let stream = self.whole();
                let rows = rows_of(&stream, &[]);
                self.push("valid", stream, rows);
            }
        }
    }

    /// A stream that a right reader accepts under both settings; some are long.
    fn whole(&mut self) -> Vec<u8> {
        if self.random.chance(25) {
            let list = generate::list(&mut self.random);
            generate::pack(&list, &mut self.random)
        } else {
            generate::valid(&mut self.random)
        }
    }

    fn valid_with_book(&mut self) {
        match self.random.below(10) {
            0 if UNTYPED_TAKEN => {
                let open = 1 + self.random.below(OPEN_LIMIT);
                let (stream, book) = nested(open, true, &mut self.random);
                let rows = rows_of(&stream, &book);
                self.push_with("valid, nested, with a book", stream, book, rows);
            }
            1 | 2 => {
                let whole = self.whole_with_book();
                let stream = padded(&whole.stream, &whole.book(), &mut self.random);
                self.push_with("valid, padded, with a book", stream, whole.book(), whole.rows);
            }
            _ => {
                let whole = self.whole_with_book();
                let book = whole.book();
                self.push_with("valid, with a book", whole.stream, book, whole.rows);
            }
        }
    }

    /// Some are long, and few have a book without entries.
    fn whole_with_book(&mut self) -> Booked {
        let (long, empty) = (self.random.chance(25), self.random.chance(5));
        loop {
            let list = generate::list(&mut self.random);
            let entries = books::made_for(&list, &mut self.random);
            if entries.is_empty() && !empty {
                continue;
            }
            let stream = generate::pack_with(&entries, &list, &mut self.random);
            if long || stream.len() <= generate::USUAL_BYTES {
                let rows = rows_of(&stream, &books::bytes(&entries));
                return Booked { stream, entries, rows };
            }
        }
    }

    /// The stream is damaged, or the book, or the book is another.
    fn damaged_with_book(&mut self) {
        let whole = self.whole_with_book();
        let (book, random) = (whole.book(), &mut self.random);
        let (what, stream, book) = match random.below(20) {
            0..=6 => ("damaged", generate::damaged(&whole.stream, random), book),
            7 => ("badly padded", badly_padded(&whole.stream, &book, random), book),
            8..=13 => ("damaged book", whole.stream, books::damaged(&whole.entries, random)),
            14 => {
                let stream = padded(&whole.stream, &book, random);
                ("padded, damaged book", stream, books::damaged(&whole.entries, random))
            }
            15 | 16 => {
                let mut entries = whole.entries;
                entries.truncate(random.below(entries.len() + 1));
                ("entries left out", whole.stream, books::bytes(&entries))
            }
            17 => {
                let stream = generate::damaged(&whole.stream, random);
                ("damaged, damaged book", stream, books::damaged(&whole.entries, random))
            }
            18 => ("book of another list", whole.stream, self.whole_with_book().book()),
            _ => {
                let open = OPEN_LIMIT + 1 + random.below(TOO_MANY);
                let (stream, book) = nested(open, true, random);
                let book = if random.chance(20) { Vec::new() } else { book };
                return self.push_with("nested too deep, with a book", stream, book, 3 * open);
            }
        };
        self.push_with(&format!("{what}, with a book"), stream, book, whole.rows);
    }

    fn damaged(&mut self) {
        if self.books && self.random.chance(50) {
            return self.damaged_with_book();
        }
        match self.random.below(200) {
            0 => self.cuts(),
            1..=5 => {
                let open = OPEN_LIMIT + 1 + self.random.below(TOO_MANY);
                let (stream, _) = nested(open, false, &mut self.random);
                self.push("nested too deep", stream, 3 * open);
            }
            6..=25 => {
                let stream = edge(&mut self.random);
                self.push("edge of a field", stream, 4);
            }
            26..=45 if !self.lists.is_empty() => {
                let list = self.random.below(self.lists.len());
                let what = format!("damaged {}", self.lists[list].what);
                self.damage(&what, &self.lists[list].stream.clone());
            }
            46..=49 => {
                let mut stream = self.whole();
                let rows = rows_of(&stream, &[]);
                stream.extend(edge_bytes(1 + self.random.below(3), &mut self.random));
                self.push("bytes after the end", stream, rows);
            }
            50..=69 => {
                let whole = self.whole();
                let stream = badly_padded(&whole, &[], &mut self.random);
                self.push("badly padded", stream, rows_of(&whole, &[]));
            }
            70..=99 => {
                let whole = self.whole();
                let stream = padded(&whole, &[], &mut self.random);
                self.damage("padded and damaged", &stream);
            }
            100..=104 if !self.lists.is_empty() => {
                let list = self.lists[self.random.below(self.lists.len())];
                let stream = padded(&list.stream, &[], &mut self.random);
                self.push(&format!("padded {}", list.what), stream, rows_of(&list.stream, &[]));
            }
            _ => {
                let whole = self.whole();
                self.damage("damaged", &whole);
            }
        }
    }

    fn damage(&mut self, what: &str, whole: &[u8]) {
        let stream = generate::damaged(whole, &mut self.random);
        self.push(what, stream, rows_of(whole, &[]));
    }

    /// One stream, cut at every place.
    fn cuts(&mut self) {
        let whole = generate::valid(&mut self.random);
        let rows = rows_of(&whole, &[]);
        for place in 0..whole.len() {
            self.push(&format!("cut at {place}"), whole[..place].to_vec(), rows);
        }
    }
}

/// Rows that a stream needs, padded or not, at most those of the largest table.
pub fn rows_of(stream: &[u8], book: &[u8]) -> usize {
    let most = MOST_WORDS / ROW_WORDS;
    let reading = read_records(stream, most, Setting::Lenient.with(book));
    reading.map_or(most, |reading| reading.records.len())
}

/// Mostly more than enough words; else the sizes at which a reader could go
/// wrong.
pub fn table_words(rows: usize, random: &mut Random) -> usize {
    let enough = rows * ROW_WORDS;
    let part_of_row = 1 + random.below(ROW_WORDS - 1);
    let words = match random.below(24) {
        0 => 0,
        1 => part_of_row,
        2 | 3 => enough.saturating_sub(ROW_WORDS),
        4 => enough.saturating_sub(part_of_row),
        5 => random.below(enough + 1),
        6 | 7 => enough,
        8 | 9 => enough + part_of_row,
        10 if random.chance(10) => MOST_WORDS,
        _ => enough + ROW_WORDS * (1 + random.below(8)),
    };
    words.min(MOST_WORDS)
}

/// Objects one in the other, `open` of them at once, with nulls on both sides
/// of the slot that holds the next; and a book with their class. Untyped ones
/// leave the types to the book, mostly.
fn nested(open: usize, untyped: bool, random: &mut Random) -> (Vec<u8>, Vec<u8>) {
    let (before, after) = (random.below(3), random.below(3));
    let slots = before + 1 + after;
    let members: Vec<Member> = vec![("", 2, &[]); slots];
    let names = vec![""; slots];
    let array_outside = random.chance(30);
    let first_class = if array_outside { 2 } else { 1 };
    let mut stream = Stream::new();
    for id in 1..=open as i32 {
        let known = id > first_class && random.chance(80);
        stream = if id < first_class {
            stream.objects(id, slots as i32)
        } else if known {
            stream.by_id(id, first_class)
        } else if untyped && random.chance(80) {
            stream.untyped_system(id, "P", &names)
        } else {
            stream.system(id, "P", &members)
        };
        stream = nulls(stream, before);
    }
    stream = stream.null();
    for _ in 0..open {
        stream = nulls(stream, after);
    }
    (stream.end().0, Stream::default().entry("P", None, &members).0)
}

fn nulls(stream: Stream, count: usize) -> Stream {
    match count {
        0 => stream,
        1 => stream.null(),
        _ => stream.nulls(count as u8),
    }
}

/// A short stream with one field at the edge of what is allowed, on either
/// side.
fn edge(random: &mut Random) -> Vec<u8> {
    let slot = Stream::new().objects(1, 1);
    let stream = match random.below(6) {
        0 => {
            let text = edge_text(random);
            Stream::new().bytes(&[6]).int(1).bytes(&[text.len() as u8]).bytes(&text)
        }
        1 => {
            let prefix = edge_prefix(random);
            Stream::new().bytes(&[6]).int(1).bytes(&prefix).bytes(&[b'A'; 130])
        }
        2 => slot.typed(3, &edge_char(random)),
        3 => slot.bytes(&[8, 5]).text(&edge_decimal(random)),
        4 => slot.typed(13, &edge_date(random)),
        _ => {
            let code = random.below(19) as u8;
            let value = edge_bytes(random.pick(&[1, 2, 4, 8, 8]), random);
            slot.typed(code, &value)
        }
    };
    stream.end().0
}

/// Bytes next to which a rule of UTF-8, of prefixes or of a value changes.
const EDGES: [u8; 30] = [
    0x00, 0x01, 0x02, 0x07, 0x08, 0x1F, 0x20, 0x3F, 0x40, 0x5F, 0x7F, 0x80, 0x8F, 0x90, 0x9F, 0xA0,
    0xBF, 0xC0, 0xC1, 0xC2, 0xDF, 0xE0, 0xE1, 0xED, 0xEE, 0xEF, 0xF0, 0xF4, 0xF5, 0xFF,
];
const CONTINUATIONS: [u8; 6] = [0x80, 0x8F, 0x90, 0x9F, 0xA0, 0xBF];

fn edge_bytes(count: usize, random: &mut Random) -> Vec<u8> {
    (0..count).map(|_| random.pick(&EDGES)).collect()
}

/// Mostly the right number of continuation bytes after the first.
fn edge_char(random: &mut Random) -> Vec<u8> {
    let mut bytes = edge_bytes(1, random);
    let more = match bytes[0] {
        0x00..=0xBF => 0,
        0xC0..=0xDF => 1,
        0xE0..=0xEF => 2,
        _ => 3,
    };
    for _ in 0..more {
        bytes.push(if random.chance(8) {
            random.pick(&EDGES)
        } else {
            random.pick(&CONTINUATIONS)
        });
    }
    if random.chance(8) {
        bytes.pop();
    }
    bytes
}

fn edge_text(random: &mut Random) -> Vec<u8> {
    (0..random.below(4)).flat_map(|_| edge_char(random)).collect()
}

fn edge_prefix(random: &mut Random) -> Vec<u8> {
    match random.below(4) {
        // The text's own length in two bytes, or nearly.
        0 => vec![0x82, random.below(3) as u8],
        1 => edge_bytes(1, random),
        _ => {
            let count = random.below(6);
            let mut bytes: Vec<u8> = (0..count).map(|_| random.pick(&[0x80, 0x82, 0xFF])).collect();
            bytes.push(random.pick(&EDGES));
            bytes
        }
    }
}

fn edge_decimal(random: &mut Random) -> String {
    let sign = random.pick(&["", "", "-"]);
    let zeros = "0".repeat(random.pick(&[0, 0, 1, 5]));
    let fraction = random.pick(&["", "", ".", ".0", ".000", ".5", ".0001"]);
    let mut text = format!("{sign}{zeros}{}{fraction}", edge_whole(random));
    if random.chance(15) {
        let place = random.below(text.len() + 1);
        text.insert(place, random.pick(&['-', '.', '+', 'E', ' ', '/', ':', '\u{661}']));
    }
    text
}

/// Any kind, and ticks on either side of a bound of theirs: none, the last one,
/// and the bit that would be the sign of signed ones.
fn edge_date(random: &mut Random) -> [u8; 8] {
    let bound = random.pick(&[0, LAST_TICK, 1 << 61]);
    let ticks = (bound + random.below(3) as u64).wrapping_sub(1) % (1 << 62);
    let kind = random.below(4) as u64;
    (kind << 62 | ticks).to_le_bytes()
}

/// The largest whole part or one that differs from it in a digit, or any.
fn edge_whole(random: &mut Random) -> String {
    let mut digits = b"79228162514264337593543950335".to_vec();
    match random.below(4) {
        0 => {}
        1 => {
            let place = random.below(digits.len());
            digits[place] = b'0' + random.below(10) as u8;
        }
        2 => digits.push(b'0'),
        _ => digits = (0..random.below(31)).map(|_| b'0' + random.below(10) as u8).collect(),
    }
    digits.into_iter().map(char::from).collect()
}

#[cfg(test)]
mod tests {
    use super::*;
    use crate::reader::{UNTYPED_CLASS, UNTYPED_SYSTEM_CLASS};
    use crate::show::{found, MOST_BOOK, MOST_BYTES};

    #[test]
    fn the_first_half_is_valid() {
        let made = [false, true].map(|books| generated(7, 2_000, &[], books));
        for case in made.into_iter().flat_map(|cases| cases.into_iter().take(1_000)) {
            let enough = found(&case.stream, MOST_WORDS, case.terms(Setting::Lenient));
            assert!(enough.outcome.is_ok(), "{}: {:02X?}", enough.answer, case.stream);
            let strict = found(&case.stream, MOST_WORDS, case.terms(Setting::Strict));
            let is_padded = case.what.contains("padded");
            assert!(strict.outcome.is_ok() || is_padded, "{}", strict.answer);
        }
    }

    /// Of the first thousand, which are valid, with what they need.
    #[test]
    fn tables_have_all_the_odd_sizes() {
        let cases: Vec<Case> = generated(7, 2_000, &[], true).into_iter().take(1_000).collect();
        let enough = |case: &Case| rows_of(&case.stream, &case.book) * ROW_WORDS;
        let with = |odd: fn(usize, usize) -> bool| {
            cases.iter().filter(|case| odd(case.words, enough(case))).count()
        };
        assert!(with(|words, _| words == 0) > 10);
        assert!(with(|words, _| words == 7) > 0);
        assert!(with(|words, _| words % ROW_WORDS > 0) > 100);
        assert!(with(|words, enough| words + ROW_WORDS == enough) > 10);
        assert!(with(|words, enough| words + 1 == enough) > 0);
        assert!(with(|words, enough| words == enough) > 10);
    }

    #[test]
    fn one_seed_gives_the_same_streams() {
        let all = |seed| -> Vec<(Vec<u8>, Vec<u8>, usize)> {
            let cases = generated(seed, 500, &[], true).into_iter();
            cases.map(|case| (case.stream, case.book, case.words)).collect()
        };
        assert_eq!(all(3), all(3));
        assert_ne!(all(3), all(4));
    }

    #[test]
    fn everything_fits_the_comparing_program() {
        for case in generated(5, 2_000, &[], true).iter().chain(&by_hand()) {
            assert!(case.stream.len() <= MOST_BYTES && case.words <= MOST_WORDS);
            assert!(case.book.len() <= MOST_BOOK);
        }
    }

    #[test]
    fn without_books_none_has_one() {
        assert!(generated(5, 2_000, &[], false).iter().all(|case| case.book.is_empty()));
    }

    /// Both kinds are accepted and refused with every reply that is about books.
    #[test]
    fn books_and_untyped_classes_come_often() {
        let mut seen = [0; 32];
        let mut untyped = [0; 2];
        for case in generated(5, 4_000, &[], true) {
            let reading = read_records(&case.stream, usize::MAX, case.terms(Setting::Lenient));
            let number = reading.as_ref().err().map_or(0, |refusal| refusal.number);
            seen[number as usize] += usize::from(!case.book.is_empty());
            for record in reading.iter().flat_map(|reading| &reading.records) {
                let kinds = [UNTYPED_SYSTEM_CLASS, UNTYPED_CLASS];
                for (seen, kind) in untyped.iter_mut().zip(kinds) {
                    *seen += usize::from(record.row.kind == kind);
                }
            }
        }
        assert!(seen[0] > 1_000 && seen[22] > 100, "{seen:?}");
        if UNTYPED_TAKEN {
            assert!(seen[23] > 50 && seen[15] > 10, "{seen:?}");
            assert!(untyped.iter().all(|&untyped| untyped > 300), "{untyped:?}");
        }
    }
}
