//! Class books, good and bad, and records of kinds 2 and 3 that are read with
//! them.

use super::{case, slots, Case, Outcome, BOOLEAN, BYTE, INT32};
use crate::padding::padded_to;
use crate::reader::{Setting, OPEN_LIMIT, UNTYPED_TAKEN};
use crate::stream::{Member, Stream};
use Outcome::{Accepted, Refused};

/// Where kinds 2 and 3 are not taken only those with bad books are left.
pub fn cases() -> Vec<Case> {
    let groups = [
        bad_entries(),
        before_and_after_22(),
        good_entries(),
        names(),
        fields(),
        orders(),
        copies(),
    ];
    let all = groups.into_iter().flatten();
    all.filter(|case| UNTYPED_TAKEN || matches!(case.reading, Refused(22, _))).collect()
}

fn booked(what: &str, book: Stream, stream: Stream, reading: Outcome) -> Case {
    let what = format!("book: {what}");
    Case { book: book.0, ..case(&what, stream, reading) }
}

fn book() -> Stream {
    Stream::default()
}

const NUMBER: Member = ("a", 0, &[INT32]);
const TEXT: Member = ("b", 1, &[]);
const THING: Member = ("c", 2, &[]);

/// A book with the class P of one number.
fn number_book() -> Stream {
    book().entry("P", None, &[NUMBER])
}

/// A list of one object of that class, untyped; the record stands at 17.
fn number_list() -> Stream {
    Stream::new().untyped_system(1, "P", &["a"]).int(5).end()
}

/// Each alone and behind a good entry.
fn bad_entries() -> Vec<Case> {
    let start = |first: u8| book().bytes(&[first]).text("P");
    let member = || start(0).bytes(&[1]).text("a");
    let mut bad = vec![
        ("first byte 2", book().bytes(&[2]).text("P").bytes(&[0])),
        ("first byte 255", book().bytes(&[255]).text("P").bytes(&[0])),
        ("first byte alone", book().bytes(&[0])),
        ("class name cut", book().bytes(&[0, 2, b'P'])),
        ("prefix cut", book().bytes(&[0, 0x81])),
        ("prefix padded", book().bytes(&[0, 0x81, 0, b'P', 0])),
        ("prefix of 0 padded", book().bytes(&[0, 0x80, 0, 0])),
        ("fifth byte 8", book().bytes(&[0, 0x81, 0x80, 0x80, 0x80, 8, b'P', 0])),
        ("class name not text", book().bytes(&[0, 1, 0xC0, 0])),
        ("no library name", start(1)),
        ("library name cut", start(1).bytes(&[2, b'L'])),
        ("library name padded", start(1).bytes(&[0x81, 0, b'L', 0])),
        ("library name not text", start(1).bytes(&[1, 0xFF, 0])),
        ("no count behind a library name", start(1).text("L")),
        ("no count", start(0)),
        ("no member", start(0).bytes(&[1])),
        ("member name cut", start(0).bytes(&[1, 2, b'a'])),
        ("member name padded", start(0).bytes(&[1, 0x81, 0, b'a', 1])),
        ("member name not text", start(0).bytes(&[1, 1, 0x80, 1])),
        ("no type", member()),
        ("no code", member().bytes(&[0])),
        ("no code of an array", member().bytes(&[7])),
        ("one member of two", start(0).bytes(&[2]).text("a").bytes(&[1])),
        ("type 3", member().bytes(&[3]).text("Q")),
        ("type 4", member().bytes(&[4]).text("Q").int(1)),
        ("type 8", member().bytes(&[8])),
        ("type 255", member().bytes(&[255])),
    ];
    for code in [0, 4, 17, 18, 255] {
        bad.push(("a code", member().bytes(&[0, code])));
        bad.push(("a code of an array", member().bytes(&[7, code])));
    }
    let mut cases = Vec::new();
    for (what, entry) in bad {
        let good = number_book();
        let place = good.0.len();
        cases.push(booked(what, entry.clone(), number_list(), Refused(22, 0)));
        let both = good.bytes(&entry.0);
        cases.push(booked(&format!("{what}, second"), both, number_list(), Refused(22, place)));
    }
    cases
}

fn before_and_after_22() -> Vec<Case> {
    let bad = || book().bytes(&[2]);
    let plain = || Stream::new().string(1, "12E5").end();
    let lenient = |case: Case| Case { setting: Setting::Lenient, ..case };
    let padded = || book().bytes(&[0, 0x81, 0, b'P', 0]);
    vec![
        booked("bad, no stream", bad(), Stream::default(), Refused(22, 0)),
        booked("bad, no kind 2 or 3", bad(), plain(), Refused(22, 0)),
        booked("bad, no words", bad(), plain(), Refused(22, 0)).words(0),
        booked("bad, no output", bad(), plain(), Refused(22, 0)).out(0),
        booked("bad, a kind that is none", bad(), Stream::default().bytes(&[18]), Refused(22, 0)),
        lenient(booked("padded, lenient", padded(), plain(), Refused(22, 0))),
        booked("good, no stream", number_book(), Stream::default(), Refused(2, 0)),
        booked("good, no kind 2 or 3", number_book(), plain(), Accepted(3)).copied(plain()),
    ]
}

fn good_entries() -> Vec<Case> {
    let every: [Member; 6] = [NUMBER, TEXT, THING, ("d", 5, &[]), ("e", 6, &[]), ("f", 7, &[BYTE])];
    let filled = |stream: Stream| stream.int(5).string(2, "A").typed(BOOLEAN, &[1]).nulls(3).end();
    let names = every.map(|(name, _, _)| name);
    let whole = filled(Stream::new().system(1, "T", &every));
    let untyped = filled(Stream::new().untyped_system(1, "T", &names));
    let of_library = Stream::new().library(5, "L").untyped(1, "P", &["c"], 5).null().end();
    let copy = Stream::new().library(1, "L").class(1, "P", &[THING], 1).null().end();
    let none = Stream::new().untyped_system(1, "", &[]).end();
    let first = book().entry("P", None, &[NUMBER]).entry("P", None, &[("a", 1, &[])]);
    let number = Stream::new().system(1, "P", &[NUMBER]).int(5).end();
    let other = book().entry("P", None, &[("a", 1, &[])]).entry("P", None, &[NUMBER]);
    let text = Stream::new().untyped_system(1, "P", &["a"]).string(2, "A").end();
    let text_copy = Stream::new().system(1, "P", &[("a", 1, &[])]).string(2, "A").end();
    let twice = book().entry("P", None, &[("a", 2, &[]), ("a", 0, &[BYTE])]);
    vec![
        booked("every type", book().entry("T", None, &every), untyped, Accepted(7)).copied(whole),
        booked("a library", book().entry("P", Some("L"), &[THING]), of_library, Accepted(5))
            .copied(copy),
        booked("no member, no name", book().bytes(&[0, 0, 0]), none, Accepted(3))
            .copied(Stream::new().system(1, "", &[]).end()),
        booked("first of two equal entries", first.clone(), number_list(), Accepted(4))
            .copied(number),
        booked("first of two, the other way", other, text.clone(), Accepted(4)).copied(text_copy),
        booked("not the second", first, text, Refused(5, 34)),
        booked(
            "one member name twice",
            twice,
            Stream::new().untyped_system(1, "P", &["a", "a"]).null().bytes(&[7]).end(),
            Accepted(5),
        ),
    ]
}

/// What an entry and a record must have in common.
fn names() -> Vec<Case> {
    let two = || book().entry("P", None, &[NUMBER, TEXT]);
    let record = |name: &str, members: &[&str]| Stream::new().untyped_system(1, name, members);
    let of = |library: &str, name: &str, members: &[&str]| {
        Stream::new().library(1, library).untyped(1, name, members, 1)
    };
    let place = |library: &str| 17 + 6 + library.len();
    let none = Refused(23, 17);
    let turned = || record("P", &["b", "a"]);
    let both = two().entry("P", None, &[TEXT, NUMBER]);
    let border = book().entry("P", None, &[("ab", 1, &[]), ("c", 1, &[])]);
    let of_library = || book().entry("P", Some("L"), &[TEXT]);
    let unnamed = || book().entry("P", Some(""), &[TEXT]);
    let system = || book().entry("P", None, &[TEXT]);
    let same_name =
        Stream::new().library(3, "L").library(2, "L").untyped(1, "P", &["b"], 2).null().end();
    let many: Vec<String> = (0..256).map(|at| format!("m{at}")).collect();
    let many: Vec<&str> = many.iter().map(String::as_str).collect();
    let things: Vec<Member> = many.iter().map(|name| (*name, 2, &[][..])).collect();
    let most = book().entry("P", None, &things[..255]);
    let with_none = || book().entry("P", None, &[]);
    let most_copy = Stream::new().system(1, "P", &things[..255]).nulls(255).end();
    vec![
        booked("order of member names", two(), turned(), none),
        booked("order of the second entry", both, turned().null().int(5).end(), Accepted(5)),
        booked("one member less", two(), record("P", &["a"]), none),
        booked("one member more", two(), record("P", &["a", "b", "c"]), none),
        booked("border of member names", border, record("P", &["a", "bc"]), none),
        booked("other letters", two(), record("P", &["A", "b"]), none),
        booked("other class name", two(), record("p", &["a", "b"]), none),
        booked("no entry", book(), record("P", &[]), none),
        booked("library entry, system class", of_library(), record("P", &["b"]), none),
        booked("unnamed library's entry, system class", unnamed(), record("P", &["b"]), none),
        booked("system entry, class", system(), of("L", "P", &["b"]), Refused(23, place("L"))),
        booked("system entry, unnamed library", system(), of("", "P", &["b"]), {
            Refused(23, place(""))
        }),
        booked("unnamed library", unnamed(), of("", "P", &["b"]).null().end(), Accepted(5)),
        booked("other library", of_library(), of("l", "P", &["b"]), Refused(23, place("l"))),
        booked("library by name", of_library(), same_name, Accepted(6)),
        booked("255 members", most.clone(), record("P", &many[..255]).nulls(255).end(), {
            Accepted(4)
        })
        .out(4096)
        .copied(most_copy),
        booked("256 members, entry of 255", most, record("P", &many), none),
        booked("256 members, entry of 0", with_none(), record("P", &many), none),
    ]
}

/// Refusals and places are those of kinds 4 and 5.
fn fields() -> Vec<Case> {
    let of = |what: &str, stream: Stream, number| {
        booked(&format!("fields: {what}"), number_book(), stream, Refused(number, 17))
    };
    let open = |kind: u8| Stream::new().bytes(&[kind]).int(1);
    let text = book().entry("P", None, &[TEXT]);
    let string_slot = Stream::new().strings(1, 1).untyped_system(2, "P", &["b"]);
    let array_slot = Stream::new().system(1, "O", &[("d", 5, &[])]).bytes(&[3]);
    let array_place = array_slot.0.len() - 1;
    let mut cases = vec![
        of("no id", Stream::new().bytes(&[2]), 2),
        of("id 0", Stream::new().untyped_system(0, "P", &["a"]), 12),
        of("no name", open(2), 2),
        of("name not text", open(2).bytes(&[1, 0xC0]), 8),
        of("name padded", open(2).bytes(&[0x81, 0, b'P']).int(1).text("a"), 7),
        of("no count", open(2).text("P"), 2),
        of("negative count", open(2).text("P").int(-1), 9),
        of("largest count", open(2).text("P").int(i32::MAX).text("a"), 2),
        of("member name not text", open(2).text("P").int(1).bytes(&[1, 0xFF]), 8),
        of("no LibraryId", open(3).text("P").int(1).text("a"), 2),
        of("LibraryId 0", Stream::new().untyped(1, "P", &["a"], 0), 12),
        of("LibraryId negative", Stream::new().untyped(1, "P", &["a"], -1), 12),
        of("no library", Stream::new().untyped(1, "P", &["a"], 1), 13),
        booked("id used before", text.clone(), slots(1).untyped_system(1, "P", &["b"]), {
            Refused(12, 26)
        }),
        booked(
            "negative id",
            text.clone(),
            Stream::rooted(-1).untyped_system(-1, "P", &["b"]).null().end(),
            Accepted(4),
        ),
        booked("in a string slot", text.clone(), string_slot, Refused(5, 26)),
        booked("in an array slot", text.clone(), array_slot, Refused(5, array_place)),
        booked(
            "in an object slot",
            text.clone(),
            slots(1).untyped_system(2, "P", &["b"]).null().end(),
            Accepted(5),
        ),
    ];
    for kind in [2, 3] {
        let stream = Stream::default().bytes(&[kind]);
        cases.push(booked(&format!("kind {kind} first"), text.clone(), stream, Refused(5, 0)));
    }
    cases
}

/// Sixty-four open objects; the slot of the last is next.
fn deepest() -> Stream {
    let inner = |stream: Stream, id| stream.system(id, "O", &[("", 2, &[])]);
    (2..=OPEN_LIMIT as i32).fold(slots(1), inner)
}

fn orders() -> Vec<Case> {
    let things = || book().entry("P", None, &[THING]);
    let deep = |name: &str| deepest().untyped_system(65, name, &["c"]);
    let place = deepest().0.len();
    let ends = |stream: Stream| stream.null().end();
    let without = || book().entry("P", None, &[]);
    let rows = OPEN_LIMIT + 3;
    let full = |what: &str, name: &str, number| {
        let stream = Stream::new().untyped_system(1, name, &["c"]);
        booked(what, things(), stream, Refused(number, 17)).words(8)
    };
    let whole = Stream::new().untyped_system(1, "P", &["c"]).null().end();
    let kind_1 = |stream: Stream| stream.by_id(2, 1).null();
    let second = Stream::new().untyped_system(1, "P", &["c"]).null();
    let open = Stream::new().untyped_system(1, "P", &["c"]);
    let of_kind_1 = kind_1(second.clone());
    let of_kind_1_place = of_kind_1.0.len();
    let first = || Stream::new().system(1, "P", &[THING]);
    vec![
        booked("13 before 23", book(), Stream::new().untyped(1, "X", &["c"], 9), Refused(13, 17)),
        booked("23 before 15", things(), deep("X"), Refused(23, place)).words(8 * 128),
        booked("15", things(), deep("P"), Refused(15, place)).words(8 * 128),
        booked("15 before 16", things(), deep("P"), Refused(15, place)).words(8 * (OPEN_LIMIT + 1)),
        booked(
            "no slots, so not too deep",
            without(),
            deepest().untyped_system(65, "P", &[]).end(),
            Accepted(rows),
        )
        .words(8 * 128)
        .out(8192),
        full("23 before 16", "X", 23),
        full("16", "P", 16),
        booked("a full copy", things(), whole, Accepted(4)).needs(32, 33),
        booked("kind 1", things(), kind_1(second).end(), Accepted(6))
            .copied(kind_1(first().null()).end()),
        booked("kind 1 while open", things(), kind_1(open).end(), Accepted(5))
            .copied(kind_1(first()).end()),
        booked("kind 1 of kind 1", things(), ends(of_kind_1.by_id(3, 2)), {
            Refused(14, of_kind_1_place)
        }),
    ]
}

fn copies() -> Vec<Case> {
    let things = || book().entry("P", None, &[THING]);
    let typed = |stream: Stream, id| stream.system(id, "P", &[THING]).null();
    let bare = |stream: Stream, id| stream.untyped_system(id, "P", &["c"]).null();
    let later = || typed(Stream::new(), 1).by_id(2, 1).null().end();
    let other: Member = ("c", 1, &[]);
    let twin = Stream::new().system(1, "P", &[other]).null();
    let twins = twin.clone().system(2, "P", &[THING]).null().end();
    let of_book = book().entry("P", Some("L"), &[THING]).entry("Q", Some("M"), &[]);
    let libraries = Stream::new().library(9, "N").library(8, "M").library(7, "L");
    let list = libraries.untyped(1, "P", &["c"], 7).untyped(2, "Q", &[], 8).end();
    let copy = Stream::new().library(1, "L").class(1, "P", &[THING], 1);
    let copy = copy.library(2, "M").class(2, "Q", &[], 2).end();
    let plain = bare(Stream::new(), 1).end();
    let padded = Stream(padded_to(&plain.0, &things().0, 2));
    let lenient = booked("padded names, lenient", things(), padded.clone(), Accepted(4));
    let lenient = lenient.copied(typed(Stream::new(), 1).end());
    vec![
        booked("typed, then not", things(), bare(typed(Stream::new(), 1), 2).end(), Accepted(6))
            .copied(later()),
        booked("untyped, then not", things(), typed(bare(Stream::new(), 1), 2).end(), Accepted(6))
            .copied(later()),
        booked("untyped twice", things(), bare(bare(Stream::new(), 1), 2).end(), Accepted(6))
            .copied(later()),
        booked("other types", things(), bare(twin, 2).end(), Accepted(6)).copied(twins),
        booked("its own library alone", of_book, list, Accepted(7)).copied(copy),
        booked("padded names", things(), padded, Refused(7, 17)),
        Case { setting: Setting::Lenient, ..lenient },
    ]
}
