//! Streams written by hand, with what a right reader answers to each: the
//! counter examples and the points where a wording could be taken two ways.

use crate::reader::{Setting, Terms, UNTYPED_TAKEN};
use crate::stream::Stream;

mod books;
mod settings;

pub const WORDS: usize = 512;
pub const OUT: usize = 1024;

const BOOLEAN: u8 = 1;
const BYTE: u8 = 2;
const CHAR: u8 = 3;
const DECIMAL: u8 = 5;
const INT32: u8 = 8;
const DATE_TIME: u8 = 13;

#[derive(Clone, Copy, PartialEq, Eq, Debug)]
pub enum Outcome {
    Accepted(usize),
    Refused(u32, usize),
}
use Outcome::{Accepted, Refused};

pub struct Case {
    pub what: String,
    pub stream: Vec<u8>,
    /// The class book.
    pub book: Vec<u8>,
    pub words: usize,
    pub out: usize,
    pub setting: Setting,
    pub reading: Outcome,
    /// Of the tidy copy, where the case is about it: its bytes or the needed
    /// length of reply 20.
    pub copy: Option<Result<Vec<u8>, usize>>,
}

fn case(what: &str, stream: Stream, reading: Outcome) -> Case {
    Case {
        what: what.into(),
        stream: stream.0,
        book: Vec::new(),
        words: WORDS,
        out: OUT,
        setting: Setting::Strict,
        reading,
        copy: None,
    }
}

impl Case {
    /// Its setting with its book.
    pub fn terms(&self) -> Terms<'_> {
        self.setting.with(&self.book)
    }

    fn words(self, words: usize) -> Case {
        Case { words, ..self }
    }

    fn out(self, out: usize) -> Case {
        Case { out, ..self }
    }

    fn copied(self, copy: Stream) -> Case {
        Case { copy: Some(Ok(copy.0)), ..self }
    }

    fn needs(self, out: usize, needed: usize) -> Case {
        Case { out, copy: Some(Err(needed)), ..self }
    }
}

pub fn cases() -> Vec<Case> {
    under_strict().into_iter().chain(settings::cases()).chain(books::cases()).collect()
}

/// Those that are about the class book.
pub fn with_books() -> Vec<Case> {
    books::cases()
}

/// A number that kinds 2 and 3 give, which is 4 where they are not taken.
const fn untyped(number: u32) -> u32 {
    if UNTYPED_TAKEN {
        number
    } else {
        4
    }
}

/// Those that are not about the settings or the class book, each with what a strict reader
/// answers.
pub fn under_strict() -> Vec<Case> {
    let groups = [
        counter_examples(),
        headers(),
        kind_bytes(),
        slot_kinds(),
        class_fields(),
        array_fields(),
        primitive_items(),
        prefixes(),
        texts(),
        chars(),
        decimals(),
        dates(),
        other_values(),
        object_ids(),
        libraries(),
        metadata_ids(),
        references(),
        null_runs(),
        depths(),
        full_tables(),
        tidy_copies(),
        giants(),
        messages(),
    ];
    groups.into_iter().flatten().collect()
}

/// A header and the string 12E5, without the end.
fn listed() -> Stream {
    Stream::new().string(1, "12E5")
}

/// A header and an object array of so many slots; the first stands at 26.
fn slots(count: i32) -> Stream {
    Stream::new().objects(1, count)
}

pub fn counter_examples() -> Vec<Case> {
    let whole = listed().end();
    let run = slots(256).nulls(255).null().end();
    vec![
        case("1", Stream::default(), Refused(2, 0)),
        case("2", whole.clone(), Accepted(3)).copied(whole.clone()),
        case(
            "2, HeaderId -1",
            Stream::default().header(1, -1).string(1, "12E5").end(),
            Accepted(3),
        )
        .copied(whole.clone()),
        case("2, ids 7", Stream::rooted(7).string(7, "12E5").end(), Accepted(3))
            .copied(whole.clone()),
        case("3", listed(), Refused(2, 27)),
        case("4", listed().end().bytes(&[0]), Refused(17, 28)),
        case("5", Stream::rooted(2).string(1, "12E5").end(), Refused(18, 0)),
        case(
            "6",
            Stream::new().bytes(&[6]).int(1).bytes(&[0x84, 0]).bytes(b"12E5").end(),
            Refused(7, 17),
        ),
        case("7", slots(3).nulls(3).end(), Accepted(4)),
        case("8", slots(3).nulls(4), Refused(9, 26)),
        case("9", slots(3).nulls(0).end(), Refused(5, 28)),
        case("10", slots(1).reference(5).end(), Refused(19, 26)),
        case("11", slots(1).typed(DECIMAL, b"\x0412E5"), Refused(11, 26)),
        case("12", run.clone(), Accepted(5)).copied(slots(256).long_nulls(256).end()),
        case("12, one byte short", run, Accepted(5)).needs(31, 32),
        case("13", whole, Refused(16, 27)).words(16),
        case("14", slots(0).end(), Accepted(3)).copied(slots(0).end()),
    ]
}

fn headers() -> Vec<Case> {
    let start = || Stream::default().bytes(&[0]).int(1).int(1);
    vec![
        case("kind byte alone", Stream::default().bytes(&[0]), Refused(2, 0)),
        case("RootId cut", Stream::default().bytes(&[0, 1, 0]), Refused(2, 0)),
        case("no version", start(), Refused(2, 0)),
        case("major 2 and nothing", start().int(2), Refused(6, 0)),
        case("major 1 and nothing", start().int(1), Refused(2, 0)),
        case("minor 1", start().int(1).int(1), Refused(6, 0)),
        case("minor cut", start().int(1).bytes(&[0, 0, 0]), Refused(2, 0)),
        case("header alone", Stream::new(), Refused(2, 17)),
        case("header and end", Stream::new().end(), Refused(18, 0)),
        case("RootId 0", Stream::rooted(0).string(1, "").end(), Refused(18, 0)),
        case("no words", listed().end(), Refused(16, 0)).words(0),
        case("a broken row", listed().end(), Refused(16, 0)).words(7),
        case("bad version, no words", start().int(1).int(9), Refused(6, 0)).words(0),
        case("a broken last row", listed().end(), Accepted(3)).words(31),
        case("second header", listed().header(1, 1).end(), Refused(5, 27)),
        case(
            "root is a class with a negative id",
            Stream::rooted(-4).system(-4, "P", &[]).end(),
            Accepted(3),
        )
        .copied(Stream::new().system(1, "P", &[]).end()),
        case("root is nested", Stream::rooted(9).objects(4, 1).string(9, "A").end(), Accepted(4))
            .copied(Stream::default().header(2, 2).objects(1, 1).string(2, "A").end()),
        case(
            "root is a library's number",
            Stream::rooted(3).library(3, "L").string(1, "").end(),
            Refused(18, 0),
        ),
        case("17 before 18", Stream::rooted(2).string(1, "").end().end(), Refused(17, 24)),
        case("18 before 19", Stream::rooted(2).objects(1, 1).reference(7).end(), Refused(18, 0)),
        case("17 before 19", slots(1).reference(7).end().bytes(&[0]), Refused(17, 32)),
    ]
}

fn kind_bytes() -> Vec<Case> {
    let first = [(6, 5), (12, 5), (11, 5), (2, untyped(5)), (22, 4), (18, 3), (255, 3)];
    let top = [
        (2, untyped(2)),
        (3, untyped(2)),
        (21, 4),
        (22, 4),
        (18, 3),
        (19, 3),
        (20, 3),
        (23, 3),
        (255, 3),
        (0, 5),
        (8, 5),
        (9, 5),
        (10, 5),
        (13, 5),
        (14, 5),
    ];
    let mut cases = Vec::new();
    for (kind, number) in first {
        let what = format!("kind {kind} first");
        cases.push(case(&what, Stream::default().bytes(&[kind]), Refused(number, 0)));
    }
    for (kind, number) in top {
        let what = format!("kind {kind} at top level");
        cases.push(case(&what, Stream::new().bytes(&[kind]), Refused(number, 17)));
    }
    let full = |kind: u8, number| {
        let what = format!("kind {kind} and a full table");
        case(&what, Stream::new().bytes(&[kind]), Refused(number, 17)).words(8)
    };
    cases.extend([full(18, 3), full(3, untyped(2)), full(9, 5), full(11, 16)]);
    cases
}

fn slot_kinds() -> Vec<Case> {
    let mut cases = Vec::new();
    let mut try_all = |what: &str, start: Stream, wrong: &[u8]| {
        let place = start.0.len();
        for &kind in wrong {
            let number = match kind {
                3 => untyped(5),
                21 => 4,
                _ => 5,
            };
            let what = format!("kind {kind} in {what}");
            cases.push(case(&what, start.clone().bytes(&[kind]), Refused(number, place)));
        }
    };
    try_all("kind 17", Stream::new().strings(1, 1), &[0, 1, 3, 4, 5, 7, 8, 11, 15, 16, 17]);
    try_all("kind 16", slots(1), &[0, 7, 11, 15, 16, 17, 21]);
    try_all("an array slot", Stream::new().system(1, "", &[("", 7, &[BYTE])]), &[1, 6, 8, 11, 15]);
    try_all("an array slot", Stream::new().array(1, 1, &[2]).bytes(&[5]), &[4, 16]);
    try_all("a string slot", Stream::new().system(1, "", &[("", 1, &[])]), &[4, 8]);
    let whole = Stream::new()
        .system(1, "P", &[("a", 1, &[]), ("b", 2, &[]), ("c", 3, b"\x01Q"), ("d", 6, &[])])
        .string(2, "A")
        .typed(BOOLEAN, &[1])
        .system(3, "", &[])
        .reference(2)
        .end();
    cases.push(case("every slot its own", whole.clone(), Accepted(7)).copied(whole));
    let untyped = Stream::new().system(1, "", &[("", 7, &[BYTE])]).reference(1).end();
    cases.push(case("target not of the slot's type", untyped.clone(), Accepted(4)).copied(untyped));
    cases
}

fn class_fields() -> Vec<Case> {
    let open = || Stream::new().bytes(&[4]).int(1);
    let named = || open().text("P");
    let one = || named().int(1).text("a");
    let two = || named().int(2).text("a").text("b");
    let lib = || Stream::new().library(2, "L");
    let member = |info: &[u8]| {
        let start = lib().bytes(&[4]).int(1).text("P").int(1).text("a");
        start.bytes(&[4]).bytes(info)
    };
    let mut cases = vec![
        case("class id 0", Stream::new().bytes(&[4]).int(0), Refused(12, 17)),
        case("class id cut", Stream::new().bytes(&[4, 1, 0]), Refused(2, 17)),
        case("class name not text", open().bytes(&[1, 0xFF]), Refused(8, 17)),
        case("member count -1", named().int(-1), Refused(9, 17)),
        case("member count cut", named().bytes(&[1, 0, 0]), Refused(2, 17)),
        case("member names run out", named().int(i32::MAX), Refused(2, 17)),
        case("member name not text", named().int(2).bytes(&[1, 0x80]), Refused(8, 17)),
        case("type byte missing", one(), Refused(2, 17)),
        case("bad type byte before a missing one", two().bytes(&[8]), Refused(10, 17)),
        case("bad type byte before an info", two().bytes(&[0, 9]), Refused(10, 17)),
        case("info missing", two().bytes(&[0, 1]), Refused(2, 17)),
        case("bad code before a missing info", two().bytes(&[0, 3, 4]), Refused(10, 17)),
        case("array code 17", one().bytes(&[7, 17]), Refused(10, 17)),
        case("system name not text", one().bytes(&[3, 1, 0xC0]), Refused(8, 17)),
        case("type 4, name not text", member(&[1, 0xFF]), Refused(8, 24)),
        case("type 4, prefix fault", member(&[0x80, 0]), Refused(7, 24)),
        case("type 4, no LibraryId", member(&[1, b'Q']), Refused(2, 24)),
        case("type 4, LibraryId 0", member(&[0, 0, 0, 0, 0]), Refused(12, 24)),
        case("type 4, no library", member(&[0, 3, 0, 0, 0]), Refused(13, 24)),
        case("class without LibraryId", lib().bytes(&[5]).int(1).text("").int(0), Refused(2, 24)),
        case("LibraryId 0", lib().class(1, "", &[], 0), Refused(12, 24)),
        case("LibraryId -2", lib().class(1, "", &[], -2), Refused(12, 24)),
        case("library not there", lib().class(1, "", &[], 1), Refused(13, 24)),
        case(
            "no library at all",
            Stream::new().class(1, "", &[], 1).library(1, ""),
            Refused(13, 17),
        ),
        case("object's number", listed().class(2, "", &[], 1), Refused(13, 27)),
        case("empty class", Stream::new().system(1, "", &[]).end(), Accepted(3)),
        case(
            "equal member names",
            Stream::new().system(1, "", &[("a", 1, &[]), ("a", 1, &[])]).nulls(2).end(),
            Accepted(4),
        ),
        case(
            "slot left at the end",
            Stream::new().system(1, "", &[("a", 1, &[])]).end(),
            Refused(5, 30),
        ),
    ];
    for code in [0, 4, 17, 18, 255] {
        let what = format!("member code {code}");
        cases.push(case(&what, one().bytes(&[0, code]), Refused(10, 17)));
    }
    cases
}

fn array_fields() -> Vec<Case> {
    let open = || Stream::new().bytes(&[7]).int(1);
    let array = |array_type: u8, lengths: &[i32]| Stream::new().array(1, array_type, lengths);
    let top = i32::MAX;
    let whole = |array_type: u8, lengths: &[i32]| array(array_type, lengths).bytes(&[2]).end();
    vec![
        case("array id 0", Stream::new().bytes(&[7]).int(0), Refused(12, 17)),
        case("array id -1", Stream::new().bytes(&[7]).int(-1).bytes(&[9]), Refused(12, 17)),
        case("no array type", open(), Refused(2, 17)),
        case("array type 3", open().bytes(&[3]), Refused(4, 17)),
        case("array type 4", open().bytes(&[4]), Refused(4, 17)),
        case("array type 5", open().bytes(&[5]), Refused(4, 17)),
        case("array type 6", open().bytes(&[6]), Refused(10, 17)),
        case("array type 255", open().bytes(&[255]), Refused(10, 17)),
        case("rank missing", open().bytes(&[0, 1, 0]), Refused(2, 17)),
        case("rank 0", open().bytes(&[0]).int(0), Refused(9, 17)),
        case("rank -1", open().bytes(&[2]).int(-1), Refused(9, 17)),
        case("single of rank 2", open().bytes(&[0]).int(2), Refused(9, 17)),
        case("jagged of rank 2", open().bytes(&[1]).int(2), Refused(9, 17)),
        case("rectangle of rank 1", open().bytes(&[2]).int(1), Refused(9, 17)),
        case("rectangle of rank 33", open().bytes(&[2]).int(33), Refused(9, 17)),
        case("rank 32", whole(2, &[0; 32]), Accepted(3)).copied(whole(2, &[0; 32])),
        case("length -1", open().bytes(&[0]).int(1).int(-1), Refused(9, 17)),
        case("negative length after a zero", array(2, &[0, -1]), Refused(9, 17)),
        case(
            "missing length before the product",
            open().bytes(&[2]).int(3).int(top).int(top),
            Refused(2, 17),
        ),
        case("product 2 to the 32nd", array(2, &[65536, 65536]), Refused(9, 17)),
        case("product 2 to the 64th", array(2, &[65536; 4]), Refused(9, 17)),
        case(
            "product before the type byte",
            array(2, &[65536, 32768]).bytes(&[99]),
            Refused(9, 17),
        ),
        case("product just over", array(2, &[46341, 46341]).bytes(&[2]), Refused(9, 17)),
        case("product far over", array(2, &[top; 32]).bytes(&[2]), Refused(9, 17)),
        case("zero last", whole(2, &[top, top, top, 0]), Accepted(3)),
        case("zero first", whole(2, &[0, top, top]), Accepted(3)),
        case("product just at the top", array(2, &[1, top]).bytes(&[2]), Refused(2, 36)),
        case("type byte missing", array(0, &[0]), Refused(2, 17)),
        case("type byte 8", array(0, &[0]).bytes(&[8]), Refused(10, 17)),
        case("item code 4 of no items", array(0, &[0]).bytes(&[0, 4]), Refused(10, 17)),
        case("item code missing", array(0, &[0]).bytes(&[7]), Refused(2, 17)),
        case("item library missing", array(0, &[0]).bytes(&[4]).text("P").int(1), Refused(13, 17)),
        case("jagged of primitives", array(1, &[2]).bytes(&[0, BYTE, 5, 6]).end(), Accepted(3))
            .copied(array(1, &[2]).bytes(&[0, BYTE, 5, 6]).end()),
        case(
            "rectangle of Booleans",
            array(2, &[2, 2]).bytes(&[0, BOOLEAN, 0, 1, 1, 0]).end(),
            Accepted(3),
        ),
        case(
            "bad item of a rectangle",
            array(2, &[2, 2]).bytes(&[0, BOOLEAN, 0, 2]),
            Refused(11, 17),
        ),
        case(
            "slots in stream order",
            array(2, &[2, 2]).bytes(&[1]).null().string(2, "A").nulls(2).end(),
            Accepted(6),
        ),
        case(
            "class items",
            Stream::new()
                .library(3, "L")
                .array(1, 0, &[2])
                .bytes(&[4])
                .text("P")
                .int(3)
                .nulls(2)
                .end(),
            Accepted(5),
        ),
        case("kind 16, length -1", Stream::new().objects(1, -1), Refused(9, 17)),
        case(
            "kind 17, length cut",
            Stream::new().bytes(&[17]).int(1).bytes(&[1, 0, 0]),
            Refused(2, 17),
        ),
        case("kind 17 without slots", Stream::new().strings(1, 0).end(), Accepted(3)),
    ]
}

fn primitive_items() -> Vec<Case> {
    let array =
        |length: i32, code: u8, items: &[u8]| Stream::new().primitives(1, length, code, items);
    let mut cases = vec![
        case("kind 15, id 0", Stream::new().bytes(&[15]).int(0), Refused(12, 17)),
        case("kind 15, length -1", Stream::new().bytes(&[15]).int(1).int(-1), Refused(9, 17)),
        case("kind 15, no code", Stream::new().bytes(&[15]).int(1).int(0), Refused(2, 17)),
        case("code 4 of no items", array(0, 4, &[]), Refused(10, 17)),
        case("code 18 of no items", array(0, 18, &[]), Refused(10, 17)),
        case("items missing", array(i32::MAX, BYTE, &[]), Refused(2, 17)),
        case("bad item before a missing one", array(3, BOOLEAN, &[2]), Refused(11, 17)),
        case("missing item after good ones", array(3, BOOLEAN, &[0, 1]), Refused(2, 17)),
        case("last item cut", array(2, INT32, &[0; 7]), Refused(2, 17)),
        case("chars", array(3, CHAR, "A\u{e9}\u{20ac}".as_bytes()).end(), Accepted(3)),
        case("bad char before a missing one", array(3, CHAR, b"A\x80"), Refused(11, 17)),
        case("decimals", array(2, DECIMAL, b"\x011\x03-.5"), Refused(11, 17)),
        case("good decimals", array(2, DECIMAL, b"\x011\x04-0.5").end(), Accepted(3)),
        case("decimal prefix fault", array(2, DECIMAL, b"\x011\x81\x00"), Refused(7, 17)),
        case("end inside the items", array(2, BYTE, &[11]).end(), Refused(2, 29)),
    ];
    let sizes = [
        (1, 1),
        (2, 1),
        (3, 1),
        (6, 8),
        (7, 2),
        (8, 4),
        (9, 8),
        (10, 1),
        (11, 4),
        (12, 8),
        (13, 8),
        (14, 2),
        (15, 4),
        (16, 8),
    ];
    for (code, size) in sizes {
        let what = format!("items of code {code}");
        let stream = array(2, code, &vec![1; 2 * size]).end();
        cases.push(case(&what, stream.clone(), Accepted(3)).copied(stream));
    }
    cases
}

fn prefixes() -> Vec<Case> {
    let string = |bytes: &[u8]| Stream::new().bytes(&[6]).int(1).bytes(bytes);
    let long = "A".repeat(128);
    let mut cases = vec![
        case("string id 0 and nothing", Stream::new().bytes(&[6]).int(0), Refused(12, 17)),
        case("string id cut", Stream::new().bytes(&[6, 0, 0]), Refused(2, 17)),
        case("string id -1", Stream::new().string(-1, ""), Refused(12, 17)),
        case("128 bytes of text", Stream::new().string(1, &long).end(), Accepted(3)),
        case("127 bytes of text", Stream::new().string(1, &long[1..]).end(), Accepted(3)),
    ];
    let faults: [(&[u8], u32); 15] = [
        (&[], 2),
        (&[0x84], 2),
        (&[0x84, 0], 7),
        (&[0x80, 0], 7),
        (&[0x80, 0x80], 2),
        (&[0x80, 0x80, 0], 7),
        (&[0x80, 0x80, 0x80, 0x80], 2),
        (&[0x80, 0x80, 0x80, 0x80, 0], 7),
        (&[0x80, 0x80, 0x80, 0x80, 1], 2),
        (&[0xFF, 0xFF, 0xFF, 0xFF, 7], 2),
        (&[0xFF, 0xFF, 0xFF, 0xFF, 8], 7),
        (&[0x80, 0x80, 0x80, 0x80, 0x80], 7),
        (&[0xFF, 0xFF, 0xFF, 0x7F], 2),
        (&[0x80, 1], 2),
        (&[4, b'1', b'2', b'E'], 2),
    ];
    for (bytes, number) in faults {
        cases.push(case(&format!("prefix {bytes:02X?}"), string(bytes), Refused(number, 17)));
    }
    cases
}

/// Unicode 5.0, table 3-7: from where to where each byte of a scalar lies, row by row.
const UTF8: [&[(u8, u8)]; 9] = [
    &[(0x00, 0x7F)],
    &[(0xC2, 0xDF), (0x80, 0xBF)],
    &[(0xE0, 0xE0), (0xA0, 0xBF), (0x80, 0xBF)],
    &[(0xE1, 0xEC), (0x80, 0xBF), (0x80, 0xBF)],
    &[(0xED, 0xED), (0x80, 0x9F), (0x80, 0xBF)],
    &[(0xEE, 0xEF), (0x80, 0xBF), (0x80, 0xBF)],
    &[(0xF0, 0xF0), (0x90, 0xBF), (0x80, 0xBF), (0x80, 0xBF)],
    &[(0xF1, 0xF3), (0x80, 0xBF), (0x80, 0xBF), (0x80, 0xBF)],
    &[(0xF4, 0xF4), (0x80, 0x8F), (0x80, 0xBF), (0x80, 0xBF)],
];

/// One end of each column.
fn ends(row: &[(u8, u8)], end: fn(&(u8, u8)) -> u8) -> Vec<u8> {
    row.iter().map(end).collect()
}

fn texts() -> Vec<Case> {
    let string =
        |bytes: &[u8]| Stream::new().bytes(&[6]).int(1).bytes(&[bytes.len() as u8]).bytes(bytes);
    let mut cases = Vec::new();
    for row in UTF8 {
        let (least, most) = (ends(row, |column| column.0), ends(row, |column| column.1));
        for bytes in [&least, &most] {
            let stream = string(bytes).end();
            let what = format!("text {bytes:02X?}");
            cases.push(case(&what, stream.clone(), Accepted(3)).copied(stream));
        }
        for column in 1..row.len() {
            let (mut below, mut above) = (least.clone(), most.clone());
            below[column] -= 1;
            above[column] += 1;
            cases.push(case(&format!("text {below:02X?}"), string(&below).end(), Refused(8, 17)));
            cases.push(case(&format!("text {above:02X?}"), string(&above).end(), Refused(8, 17)));
        }
        let cut = &most[..row.len() - 1];
        if !cut.is_empty() {
            cases.push(case(&format!("text {cut:02X?}"), string(cut).end(), Refused(8, 17)));
        }
    }
    // First bytes that no row has, overlong forms, surrogates, code points that are none, and scalars cut by a letter and by the end.
    let bad: [&[u8]; 17] = [
        &[0x80],
        &[0xBF],
        &[0xF5, 0x80, 0x80, 0x80],
        &[0xFF],
        &[0xC0, 0x80],
        &[0xC0, 0xAF],
        &[0xC1, 0xBF],
        &[0xE0, 0x80, 0x80],
        &[0xE0, 0x9F, 0xBF],
        &[0xF0, 0x80, 0x80, 0x80],
        &[0xF0, 0x8F, 0xBF, 0xBF],
        &[0xED, 0xA0, 0x80],
        &[0xED, 0xA0, 0xBD, 0xED, 0xB8, 0x80],
        &[0xF4, 0x90, 0x80, 0x80],
        &[0xC3],
        &[b'A', 0xE2, 0x82, b'A'],
        &[0xD0, 0x96, 0xD0],
    ];
    for bytes in bad {
        cases.push(case(&format!("text {bytes:02X?}"), string(bytes).end(), Refused(8, 17)));
    }
    // A byte by itself, and a scalar, at each place among letters that may be passed several at a time.
    for place in 0..=8 {
        let mut bytes = [b'j'; 9];
        bytes[place] = 0x80;
        cases.push(case(&format!("80 at {place}"), string(&bytes).end(), Refused(8, 17)));
        let text = format!("{}\u{e9}{}", &"jjjjjjjj"[..place], &"jjjjjjjj"[place..]);
        let stream = Stream::new().string(1, &text).end();
        cases.push(case(&format!("text {text}"), stream.clone(), Accepted(3)).copied(stream));
    }
    for text in ["\u{e9}", "\u{80}\u{800}", "\u{d7ff}\u{e000}", "j\u{e9}\u{20ac}\u{1f600}"] {
        let stream = Stream::new().string(1, text).end();
        cases.push(case(&format!("text {text:?}"), stream.clone(), Accepted(3)).copied(stream));
    }
    let short = Stream::new().bytes(&[6]).int(1).bytes(&[2, 0xFF]);
    cases.push(case("missing text before bad text", short, Refused(2, 17)));
    cases
}

fn chars() -> Vec<Case> {
    let bad: [(&[u8], u32); 17] = [
        (&[], 2),
        (&[0x80], 11),
        (&[0xC0], 11),
        (&[0xC1, 0x80], 11),
        (&[0xF5], 11),
        (&[0xFF, 0xFF, 0xFF, 0xFF], 11),
        (&[0xC2], 2),
        (&[0xC2, b'A'], 11),
        (&[0xE2, b'A'], 2),
        (&[0xE0, 0x80, 0x80], 11),
        (&[0xE0, 0x9F, 0xBF], 11),
        (&[0xED, 0xA0, 0x80], 11),
        (&[0xF0, 0x9F, 0x98], 2),
        (&[0xF0, 0x80, 0x80, 0x80], 11),
        (&[0xF0, 0x8F, 0xBF, 0xBF], 11),
        (&[0xF4, 0x90, 0x80, 0x80], 11),
        (&[0xE2, 0x82, 0xC2], 11),
    ];
    let mut cases: Vec<Case> = bad
        .iter()
        .map(|(bytes, number)| {
            let what = format!("Char {bytes:02X?}");
            case(&what, slots(1).typed(CHAR, bytes), Refused(*number, 26))
        })
        .collect();
    for char in [
        "\0",
        "\u{7f}",
        "\u{80}",
        "\u{7ff}",
        "\u{800}",
        "\u{d7ff}",
        "\u{ffff}",
        "\u{10000}",
        "\u{10ffff}",
    ] {
        let stream = slots(1).typed(CHAR, char.as_bytes()).end();
        cases.push(case(&format!("Char {char:?}"), stream.clone(), Accepted(4)).copied(stream));
    }
    cases
}

fn decimals() -> Vec<Case> {
    let good = [
        "0",
        "-0",
        "007",
        "-0.0",
        "1.50",
        "0.0000000000000000000000000000000000001",
        "79228162514264337593543950335",
        "-79228162514264337593543950335",
        "0079228162514264337593543950335.000",
        "79228162514264337593543950334.9999",
        "9999999999999999999999999999",
    ];
    let bad = [
        "",
        "-",
        ".",
        ".5",
        "5.",
        "-.5",
        "+1",
        "--1",
        "1-",
        "1.2.3",
        "1..2",
        "1E5",
        " 1",
        "1 ",
        "1,0",
        "\u{661}",
        "79228162514264337593543950336",
        "79228162514264337593543950335.0001",
        "-79228162514264337593543950336",
        "100000000000000000000000000000",
        "0100000000000000000000000000000.0",
    ];
    let typed = |text: &str| slots(1).bytes(&[8, DECIMAL]).text(text);
    let mut cases = Vec::new();
    for text in good {
        let stream = typed(text).end();
        cases.push(case(&format!("Decimal {text}"), stream.clone(), Accepted(4)).copied(stream));
    }
    for text in bad {
        cases.push(case(&format!("Decimal {text}"), typed(text).end(), Refused(11, 26)));
    }
    let raw = |bytes: &[u8]| slots(1).typed(DECIMAL, bytes);
    cases.extend([
        case("Decimal of no text", raw(&[1, 0xFF]), Refused(11, 26)),
        case("Decimal cut", raw(b"\x021"), Refused(2, 26)),
        case("Decimal cut after a fault", raw(b"\x03E"), Refused(2, 26)),
        case("Decimal prefix cut", raw(&[0x81]), Refused(2, 26)),
        case("Decimal prefix fault", raw(&[0x81, 0, b'1']), Refused(7, 26)),
    ]);
    cases
}

fn dates() -> Vec<Case> {
    // 9999-12-31 23:59:59.9999999
    let last: u64 = 3_155_378_975_999_999_999;
    let bits = |kind: u64, ticks: u64| (kind << 62 | ticks).to_le_bytes();
    let date = |kind, ticks| slots(1).typed(DATE_TIME, &bits(kind, ticks));
    let member = || Stream::new().system(1, "C", &[("d", 0, &[DATE_TIME])]);
    let items = |items: &[u8]| Stream::new().primitives(1, 2, DATE_TIME, items);
    let mut cases = vec![
        case("DateTime kind 0", date(0, (1 << 61) - 1).end(), Accepted(4)),
        case("DateTime kind 1", date(1, (1 << 61) - 1).end(), Accepted(4)),
        case("DateTime kind 3", date(3, 0).end(), Refused(11, 26)),
        case("DateTime kind 3, last", date(3, last).end(), Refused(11, 26)),
        case("DateTime bit 61", date(0, 1 << 61).end(), Accepted(4)),
        case("DateTime kind 2, bit 61", date(2, 1 << 61).end(), Accepted(4)),
        case("DateTime cut", slots(1).typed(DATE_TIME, &[0xFF; 7]), Refused(2, 26)),
        case("DateTime member, last", member().bytes(&bits(0, last)).end(), Accepted(4)),
        case("DateTime member, past", member().bytes(&bits(0, last + 1)), Refused(11, 32)),
        case("DateTime items, cut", items(&bits(0, last)), Refused(2, 17)),
        case("DateTime items, bad first", items(&bits(0, last + 1)), Refused(11, 17)),
    ];
    for kind in 0..3 {
        for (what, ticks) in [("first", 0), ("last", last)] {
            let stream = date(kind, ticks).end();
            let what = format!("DateTime {what} of kind {kind}");
            cases.push(case(&what, stream.clone(), Accepted(4)).copied(stream));
        }
        for (what, ticks) in [("past the last", last + 1), ("all bits", (1 << 62) - 1)] {
            let what = format!("DateTime {what} of kind {kind}");
            cases.push(case(&what, date(kind, ticks).end(), Refused(11, 26)));
        }
    }
    cases
}

fn other_values() -> Vec<Case> {
    let member = |code: u8| Stream::new().system(1, "", &[("", 0, &[code])]);
    vec![
        case("Boolean 2", slots(1).typed(BOOLEAN, &[2]), Refused(11, 26)),
        case("Boolean 255", slots(1).typed(BOOLEAN, &[255]), Refused(11, 26)),
        case("Boolean missing", slots(1).bytes(&[8, BOOLEAN]), Refused(2, 26)),
        case("typed code missing", slots(1).bytes(&[8]), Refused(2, 26)),
        case("typed code 17", slots(1).bytes(&[8, 17]), Refused(10, 26)),
        case("typed code 18", slots(1).bytes(&[8, 18, 0]), Refused(10, 26)),
        case("typed code 0", slots(1).bytes(&[8, 0]), Refused(10, 26)),
        case("Double of ones", slots(1).typed(6, &[0xFF; 8]).end(), Accepted(4)),
        case("TimeSpan of ones", slots(1).typed(12, &[0xFF; 8]).end(), Accepted(4)),
        case("Int64 cut", slots(1).typed(9, &[0; 7]), Refused(2, 26)),
        case("member of value 0C", member(BYTE).bytes(&[12]).end(), Accepted(4)),
        case("library before a member value", member(BOOLEAN).library(1, "L"), Refused(11, 30)),
        case("end in place of a member value", member(INT32).end(), Refused(2, 30)),
        case("null in place of a member value", member(BOOLEAN).null(), Refused(11, 30)),
        case("member value missing", member(BYTE), Refused(2, 30)),
        case("member value bad", member(CHAR).bytes(&[0xC2, 0x20]), Refused(11, 30)),
        case(
            "member values one by one",
            Stream::new()
                .system(1, "", &[("", 0, &[BYTE]), ("", 0, &[DECIMAL]), ("", 0, &[BOOLEAN])])
                .bytes(&[7, 1, b'5', 3]),
            Refused(11, 39),
        ),
    ]
}

fn object_ids() -> Vec<Case> {
    vec![
        case("two strings with one id", listed().string(1, "").end(), Refused(12, 27)),
        case("nested with its owner's id", slots(1).string(1, ""), Refused(12, 26)),
        case("class with a used id", listed().system(1, "", &[]), Refused(12, 27)),
        case("used id before the name", listed().bytes(&[4]).int(1), Refused(12, 27)),
        case("array with a used id", listed().objects(1, -1), Refused(12, 27)),
        case(
            "kind 1 with a used id",
            Stream::new().system(1, "", &[]).by_id(1, 1),
            Refused(12, 27),
        ),
        case("kind 1 with id 0", Stream::new().bytes(&[1]).int(0), Refused(12, 17)),
        case("kind 1, id 0 before the class", Stream::new().by_id(0, 9), Refused(12, 17)),
        case("negative string id", listed().string(-2, ""), Refused(12, 27)),
        case("negative array id", listed().strings(-2, 0), Refused(12, 27)),
        case(
            "lowest class id",
            Stream::rooted(i32::MIN).system(i32::MIN, "", &[]).end(),
            Accepted(3),
        ),
        case(
            "ids that differ in sign",
            Stream::new().system(1, "", &[]).by_id(-1, 1).end(),
            Accepted(4),
        )
        .copied(Stream::new().system(1, "", &[]).by_id(2, 1).end()),
    ]
}

fn libraries() -> Vec<Case> {
    let lib = || Stream::new().library(1, "L");
    vec![
        case("number of an object", lib().string(1, "A").end(), Accepted(4))
            .copied(Stream::new().string(1, "A").end()),
        case("used LibraryId", lib().library(1, "M"), Refused(12, 24)),
        case("used LibraryId, equal name", lib().library(1, "L"), Refused(12, 24)),
        case("used LibraryId and nothing", lib().bytes(&[12]).int(1), Refused(12, 24)),
        case("LibraryId 0", Stream::new().library(0, ""), Refused(12, 17)),
        case("LibraryId -1", Stream::new().library(-1, ""), Refused(12, 17)),
        case(
            "library name not text",
            Stream::new().bytes(&[12]).int(1).bytes(&[1, 0x80]),
            Refused(8, 17),
        ),
        case(
            "library name cut",
            Stream::new().bytes(&[12]).int(1).bytes(&[2, 0x80]),
            Refused(2, 17),
        ),
        case("library before the end", listed().library(4, "").end(), Accepted(4)),
        case("library after the end", listed().end().library(4, ""), Refused(17, 28)),
        case(
            "library inside an object is known afterwards",
            slots(2).null().library(9, "L").null().class(2, "", &[], 9).end(),
            Accepted(7),
        )
        .copied(slots(2).nulls(2).library(1, "L").class(2, "", &[], 1).end()),
        case("library at a full object", slots(1).null().library(1, "").end(), Accepted(5)),
        case("library cut off in a slot", slots(1).bytes(&[12]), Refused(2, 26)),
    ]
}

fn metadata_ids() -> Vec<Case> {
    let class = || Stream::new().system(1, "P", &[]);
    vec![
        case("names nothing", class().by_id(2, 9), Refused(14, 28)),
        case("names itself", class().by_id(2, 2), Refused(14, 28)),
        case("names 0", class().by_id(2, 0), Refused(14, 28)),
        case("names a string", listed().by_id(2, 1), Refused(14, 27)),
        case("names an array", slots(0).by_id(2, 1), Refused(14, 26)),
        case("names a kind 1", class().by_id(2, 1).by_id(3, 2), Refused(14, 37)),
        case("names a later class", Stream::new().by_id(2, 1).system(1, "", &[]), Refused(14, 17)),
        case("MetadataId missing", class().bytes(&[1]).int(2), Refused(2, 28)),
        case(
            "names an open class",
            Stream::new().system(1, "P", &[("a", 2, &[])]).by_id(2, 1).null().end(),
            Accepted(5),
        ),
        case(
            "names a negative class",
            Stream::rooted(-3).system(-3, "P", &[]).by_id(7, -3).end(),
            Accepted(4),
        ),
        case(
            "link to the very record that is named",
            Stream::new().system(1, "P", &[]).system(2, "P", &[]).by_id(3, 2).end(),
            Accepted(5),
        )
        .copied(Stream::new().system(1, "P", &[]).by_id(2, 1).by_id(3, 1).end()),
    ]
}

fn references() -> Vec<Case> {
    vec![
        case("IdRef 0", slots(1).reference(0), Refused(12, 26)),
        case("IdRef -1", slots(1).reference(-1), Refused(12, 26)),
        case("IdRef cut", slots(1).bytes(&[9, 0, 0, 0]), Refused(2, 26)),
        case("to its owner", slots(1).reference(1).end(), Accepted(4)),
        case("forward", slots(1).reference(2).string(2, "A").end(), Accepted(5)),
        case("lowest of two", slots(2).reference(8).reference(7).end(), Refused(19, 26)),
        case("second of two", slots(2).reference(1).reference(7).end(), Refused(19, 31)),
        case("to a library's number", slots(1).library(5, "").reference(5).end(), Refused(19, 32)),
        case(
            "to an id that only its negative has",
            slots(1).reference(2).system(-2, "", &[]).end(),
            Refused(19, 26),
        ),
    ]
}

fn null_runs() -> Vec<Case> {
    let members: [(&str, u8, &[u8]); 5] =
        [("a", 1, &[]), ("b", 2, &[]), ("c", 0, &[BYTE]), ("d", 5, &[]), ("e", 3, b"\x00")];
    let class = || Stream::new().system(1, "P", &members);
    let place = class().0.len();
    vec![
        case("over several types", class().nulls(2).bytes(&[9]).long_nulls(2).end(), Accepted(6)),
        case("over a primitive member", class().nulls(3), Refused(9, place)),
        case("past the members", class().nulls(2).bytes(&[9]).nulls(3), Refused(9, place + 3)),
        case(
            "run of 0 in place of a member value",
            class().nulls(2).nulls(0),
            Refused(5, place + 3),
        ),
        case(
            "runs of 0 in a class",
            class().nulls(0).null().nulls(0).null().bytes(&[9]).nulls(0).nulls(2).end(),
            Accepted(10),
        )
        .copied(class().nulls(2).bytes(&[9]).nulls(2).end()),
        case("kind 14 of 0", slots(3).long_nulls(0), Refused(9, 26)),
        case("kind 14 of -1", slots(3).long_nulls(-1), Refused(9, 26)),
        case("kind 14 of 1", slots(1).long_nulls(1).end(), Accepted(4))
            .copied(slots(1).null().end()),
        case("kind 14 cut", slots(3).bytes(&[14, 0, 0, 0]), Refused(2, 26)),
        case("kind 13 cut", slots(3).bytes(&[13]), Refused(2, 26)),
        case("too long after one", slots(3).null().nulls(3), Refused(9, 27)),
        case("too long and a full table", slots(3).nulls(4), Refused(9, 26)).words(16),
        case(
            "child's run past its end",
            slots(2).system(2, "", &[("", 2, &[])]).nulls(2),
            Refused(9, 38),
        ),
        case(
            "child's run and its owner's",
            slots(2).system(2, "", &[("", 2, &[])]).null().null().end(),
            Accepted(6),
        ),
        case(
            "in a string array",
            Stream::new().strings(1, 4).nulls(2).null().long_nulls(1).end(),
            Accepted(6),
        )
        .copied(Stream::new().strings(1, 4).nulls(4).end()),
        case(
            "over a library",
            slots(3).null().library(1, "L").nulls(0).nulls(2).end(),
            Accepted(7),
        )
        .copied(slots(3).nulls(3).end()),
        case("run of 0 alone", slots(1).nulls(0).reference(1).end(), Accepted(5))
            .copied(slots(1).reference(1).end()),
        case("255", slots(255).long_nulls(255).end(), Accepted(4))
            .copied(slots(255).nulls(255).end()),
        case("257", slots(257).nulls(2).nulls(255).end(), Accepted(5))
            .copied(slots(257).long_nulls(257).end()),
        case(
            "broken by a reference",
            slots(5).nulls(2).reference(1).null().null().end(),
            Accepted(7),
        )
        .copied(slots(5).nulls(2).reference(1).nulls(2).end()),
    ]
}

/// Classes one in the other, each in the last slot, ids from `first` on.
fn nested(start: Stream, first: i32, count: i32) -> Stream {
    let outer = start.system(first, "", &[("", 2, &[])]);
    (1..count).fold(outer, |stream, at| stream.by_id(first + at, first))
}

fn depths() -> Vec<Case> {
    let deepest = || nested(Stream::new(), 1, 64);
    let place = deepest().0.len();
    let in_array = || nested(slots(1), 2, 63);
    vec![
        case("64 open", deepest().null().end(), Accepted(67)).words(1000),
        case("65th open", deepest().by_id(65, 1), Refused(15, place)).words(1000),
        case("65th without members", deepest().system(65, "Q", &[]).end(), Accepted(67))
            .words(1000),
        case("65th is a string", deepest().string(65, "A").end(), Accepted(67)).words(1000),
        case("15 before 16", deepest().by_id(65, 1), Refused(15, place)).words(520),
        case("14 before 15", deepest().by_id(65, 99), Refused(14, place)).words(1000),
        case("12 before 15", deepest().by_id(64, 1), Refused(12, place)).words(1000),
        case("13 before 15", deepest().class(65, "", &[("", 2, &[])], 1), Refused(13, place))
            .words(1000),
        case(
            "65th with a primitive member",
            deepest().system(65, "", &[("", 0, &[BYTE])]).bytes(&[1]).end(),
            Refused(15, place),
        )
        .words(1000),
        case("array and 63 classes", in_array().null().end(), Accepted(67)).words(1000),
        case("array and 64 classes", in_array().by_id(70, 2), Refused(15, in_array().0.len()))
            .words(1000),
        case(
            "closed objects count no more",
            nested(nested(Stream::new(), 1, 40).null(), 41, 40).null().end(),
            Accepted(84),
        )
        .words(1000),
    ]
}

fn full_tables() -> Vec<Case> {
    let member = || Stream::new().system(1, "", &[("", 0, &[BOOLEAN])]);
    vec![
        case("member value", member().bytes(&[1]).end(), Refused(16, 30)).words(16),
        case("bad member value", member().bytes(&[2]).end(), Refused(11, 30)).words(23),
        case("end after a member value", member().bytes(&[1]).end(), Refused(16, 31)).words(24),
        case("just enough", member().bytes(&[1]).end(), Accepted(4)).words(32),
        case("end before trailing bytes", listed().end().bytes(&[0]), Refused(16, 27)).words(23),
        case("trailing bytes with the end's row", listed().end().bytes(&[0]), Refused(17, 28))
            .words(24),
        case("library", Stream::new().library(1, "L").string(1, "").end(), Refused(16, 17))
            .words(8),
        case("library fault", Stream::new().library(0, "L"), Refused(12, 17)).words(8),
        case("null run", slots(2).nulls(2).end(), Refused(16, 26)).words(16),
        case("run of 0", slots(2).nulls(0).nulls(2).end(), Refused(16, 26)).words(16),
        case("cut field", Stream::new().bytes(&[6, 1]), Refused(2, 17)).words(8),
        case(
            "items before room",
            Stream::new().primitives(1, 2, BOOLEAN, &[0, 7]),
            Refused(11, 17),
        )
        .words(8),
        case("class", member().bytes(&[1]).end(), Refused(16, 17)).words(15),
    ]
}

fn tidy_copies() -> Vec<Case> {
    let member: (&str, u8, &[u8]) = ("a", 4, b"\x01Q\x05\x00\x00\x00");
    let tidied: (&str, u8, &[u8]) = ("a", 4, b"\x01Q\x01\x00\x00\x00");
    let member_2: (&str, u8, &[u8]) = ("b", 4, b"\x01Q\x06\x00\x00\x00");
    let tidied_2: (&str, u8, &[u8]) = ("b", 4, b"\x01Q\x02\x00\x00\x00");
    let libs = || Stream::new().library(9, "N").library(6, "M").library(5, "L");
    let twins =
        |first: Stream, id: i32| first.class(id, "P", &[("a", 4, b"\x01Q\x05\x00\x00\x00")], 5);
    vec![
        case("unneeded libraries", libs().string(3, "A").string(1, "").end(), Accepted(7))
            .copied(Stream::default().header(2, 2).string(1, "A").string(2, "").end()),
        case(
            "field order: infos, then the class's own",
            libs().class(1, "P", &[member, member_2], 9).nulls(2).end(),
            Accepted(7),
        )
        .copied(
            Stream::new()
                .library(1, "L")
                .library(2, "M")
                .library(3, "N")
                .class(1, "P", &[tidied, tidied_2], 3)
                .nulls(2)
                .end(),
        ),
        case(
            "one library twice in a record",
            Stream::new().library(5, "L").class(1, "P", &[member], 5).null().end(),
            Accepted(5),
        )
        .copied(Stream::new().library(1, "L").class(1, "P", &[tidied], 1).null().end()),
        case(
            "twin in the slot of its twin",
            Stream::new()
                .library(5, "L")
                .library(8, "L")
                .class(1, "P", &[member], 8)
                .class(2, "P", &[member], 5)
                .null()
                .end(),
            Accepted(7),
        )
        .copied(Stream::new().library(1, "L").class(1, "P", &[tidied], 1).by_id(2, 1).null().end()),
        case(
            "twins of equal libraries",
            Stream::new()
                .library(5, "L")
                .library(8, "L")
                .class(1, "P", &[member], 8)
                .null()
                .class(2, "P", &[member], 5)
                .null()
                .by_id(3, 2)
                .null()
                .end(),
            Accepted(10),
        )
        .copied(
            Stream::new()
                .library(1, "L")
                .class(1, "P", &[tidied], 1)
                .null()
                .by_id(2, 1)
                .null()
                .by_id(3, 1)
                .null()
                .end(),
        ),
        case(
            "system class with a library in a type",
            libs().system(1, "P", &[member]).null().end(),
            Accepted(7),
        )
        .copied(Stream::new().library(1, "L").system(1, "P", &[tidied]).null().end()),
        case(
            "item library of no slots",
            libs().array(1, 0, &[0]).bytes(&[4]).text("P").int(5).end(),
            Accepted(6),
        )
        .copied(Stream::new().library(1, "L").array(1, 0, &[0]).bytes(&[4]).text("P").int(1).end()),
        case(
            "nulls before the libraries",
            slots(4).null().library(5, "L").null().class(2, "P", &[], 5).null().end(),
            Accepted(8),
        )
        .copied(slots(4).nulls(2).library(1, "L").class(2, "P", &[], 1).null().end()),
        case(
            "later object of a class needs no library",
            twins(twins(libs(), 1).null(), 4).null().end(),
            Accepted(9),
        )
        .copied(
            Stream::new()
                .library(1, "L")
                .class(1, "P", &[tidied], 1)
                .null()
                .by_id(2, 1)
                .null()
                .end(),
        ),
        case(
            "system class and a library without a name",
            Stream::new().library(2, "").system(1, "P", &[]).class(2, "P", &[], 2).end(),
            Accepted(5),
        )
        .copied(Stream::new().system(1, "P", &[]).library(1, "").class(2, "P", &[], 1).end()),
        case(
            "types 3 and 4 differ",
            Stream::new()
                .library(5, "L")
                .system(1, "P", &[("a", 3, b"\x01Q")])
                .null()
                .system(2, "P", &[member])
                .null()
                .end(),
            Accepted(7),
        )
        .copied(
            Stream::new()
                .system(1, "P", &[("a", 3, b"\x01Q")])
                .null()
                .library(1, "L")
                .system(2, "P", &[tidied])
                .null()
                .end(),
        ),
        case(
            "codes of types 0 and 7",
            Stream::new()
                .system(1, "P", &[("a", 7, &[BYTE])])
                .null()
                .system(2, "P", &[("a", 7, &[INT32])])
                .null()
                .system(3, "P", &[("a", 7, &[BYTE])])
                .null()
                .end(),
            Accepted(8),
        )
        .copied(
            Stream::new()
                .system(1, "P", &[("a", 7, &[BYTE])])
                .null()
                .system(2, "P", &[("a", 7, &[INT32])])
                .null()
                .by_id(3, 1)
                .null()
                .end(),
        ),
        case(
            "forward reference and root renumbered",
            Stream::rooted(40).objects(30, 2).reference(40).reference(30).string(40, "A").end(),
            Accepted(6),
        )
        .copied(
            Stream::default()
                .header(2, 2)
                .objects(1, 2)
                .reference(2)
                .reference(1)
                .string(2, "A")
                .end(),
        ),
        case("no output", listed().end(), Accepted(3)).needs(0, 28),
        case("output one short", listed().end(), Accepted(3)).needs(27, 28),
        case("refused before 20", listed(), Refused(2, 27)).out(0),
        case("16 before 20", listed().end(), Refused(16, 27)).words(16).out(0),
        case("shorter copy than stream", libs().string(1, "A").end(), Accepted(6)).needs(24, 25),
    ]
}

fn giants() -> Vec<Case> {
    let top = i32::MAX;
    vec![
        case("slots that nothing fills", slots(top), Refused(2, 26)),
        case("end in a giant", slots(top).end(), Refused(5, 26)),
        case("giant filled by one run", slots(top).long_nulls(top).end(), Accepted(4)),
        case("giant filled by two runs", slots(top).null().long_nulls(top - 1).end(), Accepted(5)),
        case("giant run one too long", slots(top).null().long_nulls(top), Refused(9, 27)),
        case(
            "giant rectangle",
            Stream::new().array(1, 2, &[1, top, 1]).bytes(&[1]).long_nulls(top).end(),
            Accepted(4),
        ),
        case(
            "giant of primitive items",
            Stream::new().array(1, 0, &[top]).bytes(&[0, BYTE, 1]),
            Refused(2, 17),
        ),
    ]
}

/// The request and the response of the format's own section 3, whose method
/// records are not taken. The request is printed there with two bytes missing,
/// a digit of the type name and a type byte; here they stand.
fn messages() -> Vec<Case> {
    let string: &[u8] = &[];
    let members = ["Street", "City", "State", "Zip"].map(|name| (name, 1, string));
    let library =
        "DOJRemotingMetadata, Version=1.0.2622.31326, Culture=neutral, PublicKeyToken=null";
    let request = Stream::default()
        .header(1, -1)
        .bytes(&[21])
        .int(0x14)
        .bytes(&[18])
        .text("SendAddress")
        .bytes(&[18])
        .text(&format!("DOJRemotingMetadata.MyServer, {library}"))
        .objects(1, 1)
        .reference(2)
        .library(3, library)
        .class(2, "DOJRemotingMetadata.Address", &members, 3)
        .string(4, "One Microsoft Way")
        .string(5, "Redmond")
        .string(6, "WA")
        .string(7, "98054")
        .end();
    let response = Stream::default()
        .header(0, 0)
        .bytes(&[22])
        .int(0x811)
        .bytes(&[18])
        .text("Address received")
        .end();
    vec![
        case("request of section 3", request, Refused(4, 17)),
        case("response of section 3", response, Refused(4, 17)),
    ]
}
