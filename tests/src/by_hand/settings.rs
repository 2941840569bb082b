//! Length prefixes under both settings, at every place where one stands.

use super::{case, listed, slots, Case, Outcome, BYTE, DECIMAL};
use crate::reader::Setting::{Lenient, Strict};
use crate::stream::Stream;
use Outcome::{Accepted, Refused};

pub fn cases() -> Vec<Case> {
    let mut cases: Vec<Case> = places().iter().flat_map(at_place).collect();
    cases.extend(equal_names());
    cases.extend(values());
    cases.extend(orders());
    cases
}

/// One stream under each setting.
fn both(what: &str, stream: Stream, strict: Outcome, lenient: Outcome) -> Vec<Case> {
    let under = |setting, outcome| {
        let what = format!("{what}, {setting:?}");
        Case { setting, ..case(&what, stream.clone(), outcome) }
    };
    vec![under(Strict, strict), under(Lenient, lenient)]
}

/// A padded stream: strict readers refuse it with 7, and this is its copy.
fn copied(what: &str, stream: Stream, place: usize, rows: usize, copy: Stream) -> Vec<Case> {
    let [strict, lenient] = two(both(what, stream, Refused(7, place), Accepted(rows)));
    vec![strict, lenient.copied(copy)]
}

fn two(cases: Vec<Case>) -> [Case; 2] {
    cases.try_into().unwrap_or_else(|_| panic!("two cases"))
}

/// A tidy list, but for the length and text that stand between the two parts.
struct Place {
    what: &'static str,
    before: Stream,
    after: Stream,
    /// First byte of the record or value.
    place: usize,
    rows: usize,
    is_decimal: bool,
}

fn places() -> Vec<Place> {
    let class = || Stream::new().bytes(&[4]).int(1);
    let member = || class().text("P").int(1).text("a");
    let library = || Stream::new().library(1, "L");
    let of_library = || library().bytes(&[4]).int(1).text("P").int(1).text("a").bytes(&[4]);
    let end = || Stream::default().end();
    let null = || Stream::default().null().end();
    let name = |what, place, rows, before, after| Place {
        what,
        before,
        after,
        place,
        rows,
        is_decimal: false,
    };
    let decimal = |what, place, rows, before| Place {
        what,
        before,
        after: Stream::default().end(),
        place,
        rows,
        is_decimal: true,
    };
    let value = || Stream::new().system(1, "P", &[("d", 0, &[DECIMAL])]);
    let items = b"\x017";
    vec![
        name("text", 17, 3, Stream::new().bytes(&[6]).int(1), end()),
        name("text in a slot", 26, 4, slots(1).bytes(&[6]).int(2), end()),
        name("class name", 17, 3, class(), Stream::default().int(0).end()),
        name("class name of a library", 24, 4, library().bytes(&[5]).int(1), {
            Stream::default().int(0).int(1).end()
        }),
        name("member name", 17, 4, class().text("P").int(1), {
            Stream::default().bytes(&[1]).null().end()
        }),
        name("name of type 3", 17, 4, member().bytes(&[3]), null()),
        name("name of type 4", 24, 5, of_library(), Stream::default().int(1).null().end()),
        name("item name of type 3", 17, 3, Stream::new().array(1, 0, &[0]).bytes(&[3]), end()),
        name("item name of type 4", 24, 4, library().array(1, 1, &[0]).bytes(&[4]), {
            Stream::default().int(1).end()
        }),
        name("library name", 17, 4, Stream::new().bytes(&[12]).int(1), {
            Stream::default().class(1, "P", &[], 1).end()
        }),
        decimal("Decimal of kind 8", 26, 4, slots(1).bytes(&[8, DECIMAL])),
        decimal("Decimal of kind 32", value().0.len(), 4, value()),
        decimal("Decimal of kind 15", 17, 3, Stream::new().primitives(1, 2, DECIMAL, items)),
        decimal("Decimal of kind 7", 17, 3, {
            Stream::new().array(1, 2, &[1, 2]).bytes(&[0, DECIMAL]).bytes(items)
        }),
    ]
}

/// A length in all its forms, the shortest first.
type Forms = (usize, &'static [&'static [u8]]);

const FORMS: [Forms; 4] = [
    (
        0,
        &[&[0], &[0x80, 0], &[0x80, 0x80, 0], &[0x80, 0x80, 0x80, 0], &[0x80, 0x80, 0x80, 0x80, 0]],
    ),
    (
        4,
        &[&[4], &[0x84, 0], &[0x84, 0x80, 0], &[0x84, 0x80, 0x80, 0], &[0x84, 0x80, 0x80, 0x80, 0]],
    ),
    (
        127,
        &[
            &[0x7F],
            &[0xFF, 0],
            &[0xFF, 0x80, 0],
            &[0xFF, 0x80, 0x80, 0],
            &[0xFF, 0x80, 0x80, 0x80, 0],
        ],
    ),
    (128, &[&[0x80, 1], &[0x80, 0x81, 0], &[0x80, 0x81, 0x80, 0], &[0x80, 0x81, 0x80, 0x80, 0]]),
];

impl Place {
    /// A text of this length that may stand here, but for an empty Decimal.
    fn text(&self, length: usize) -> String {
        match (self.is_decimal, length) {
            (true, 2..) => format!("1.{}", "5".repeat(length - 2)),
            _ => "A".repeat(length),
        }
    }

    fn with(&self, prefix: &[u8], text: &str) -> Stream {
        self.before.clone().bytes(prefix).bytes(text.as_bytes()).bytes(&self.after.0)
    }
}

fn at_place(at: &Place) -> Vec<Case> {
    let mut cases = Vec::new();
    for (length, forms) in FORMS {
        cases.extend(forms.iter().flat_map(|form| in_form(at, length, form, forms[0])));
    }
    for (fifth, number) in [(7, 2), (8, 7), (0x80, 7), (0xFF, 7)] {
        let what = format!("{}, fifth byte {fifth:02X}", at.what);
        let stream = at.with(&[0x84, 0x80, 0x80, 0x80, fifth], &at.text(4));
        let refused = Refused(number, at.place);
        cases.extend(both(&what, stream, refused, refused));
    }
    let (_, forms) = FORMS[1];
    let longest = forms[4];
    for kept in 0..longest.len() {
        let what = format!("{}, cut to {kept} bytes of a prefix of five", at.what);
        let stream = at.before.clone().bytes(&longest[..kept]);
        let refused = Refused(2, at.place);
        cases.extend(both(&what, stream, refused, refused));
    }
    for form in forms {
        let strict = Refused(if *form == forms[0] { 2 } else { 7 }, at.place);
        for text in ["", "1.5"] {
            let what = format!("{}, cut after {form:02X?} and {text:?}", at.what);
            let stream = at.before.clone().bytes(form).bytes(text.as_bytes());
            cases.extend(both(&what, stream, strict, Refused(2, at.place)));
        }
    }
    cases
}

/// Lenient readers take each form for the shortest; strict ones take that alone.
fn in_form(at: &Place, length: usize, form: &[u8], shortest: &[u8]) -> Vec<Case> {
    let what = format!("{}, {length} as {form:02X?}", at.what);
    let text = at.text(length);
    let is_good = !at.is_decimal || length > 0;
    let right = if is_good { Accepted(at.rows) } else { Refused(11, at.place) };
    let strict = if form == shortest { right } else { Refused(7, at.place) };
    let copy = || at.with(shortest, &text);
    let cases = both(&what, at.with(form, &text), strict, right).into_iter();
    let with_copy = |case: Case| match case.reading {
        Accepted(_) => case.copied(copy()),
        Refused(..) => case,
    };
    cases.map(with_copy).collect()
}

/// Names that are padded differently are equal names.
fn equal_names() -> Vec<Case> {
    let string: &[u8] = &[];
    let one = || Stream::new().system(1, "P", &[("a", 1, string)]).null();
    let place = one().0.len();
    let twin = |name: &[u8], member: &[u8]| {
        let class = one().bytes(&[4]).int(2).bytes(name).int(1).bytes(member);
        class.bytes(&[1]).null().end()
    };
    let tidied = || one().by_id(2, 1).null().end();
    let typed = |info: &[u8], padded: &[u8]| {
        let first = Stream::new().library(1, "L").system(1, "P", &[("a", 4, info)]).null();
        first.system(2, "P", &[("a", 4, padded)]).null().end()
    };
    let of_type: (&str, u8, &[u8]) = ("a", 4, b"\x01Q\x01\0\0\0");
    let types = Stream::new().library(1, "L").system(1, "P", &[of_type]).null();
    let libraries = Stream::new().library(1, "L").bytes(&[12]).int(2).bytes(b"\x81\x80\0L");
    let of_library = Stream::new().library(1, "L").class(1, "P", &[], 1);
    let first = Stream::new().bytes(&[12]).int(5).bytes(b"\x81\0L").library(6, "L");
    let different = one().bytes(&[4]).int(2).bytes(b"\x81\0P").int(1).bytes(b"\x81\0b");
    [
        copied("class name padded", twin(b"\x81\x80\0P", b"\x01a"), place, 6, tidied()),
        copied("member name padded", twin(b"\x01P", b"\x81\0a"), place, 6, tidied()),
        copied("both names padded", twin(b"\x81\0P", b"\x81\x80\x80\0a"), place, 6, tidied()),
        copied(
            "type name padded",
            typed(of_type.2, b"\x81\0Q\x01\0\0\0"),
            types.0.len(),
            7,
            types.clone().by_id(2, 1).null().end(),
        ),
        copied(
            "library name padded",
            libraries.clone().class(1, "P", &[], 1).class(2, "P", &[], 2).end(),
            24,
            6,
            of_library.clone().by_id(2, 1).end(),
        ),
        copied(
            "library name padded first",
            first.class(1, "P", &[], 5).class(2, "P", &[], 6).end(),
            17,
            6,
            of_library.by_id(2, 1).end(),
        ),
        copied(
            "padded class differs in a name",
            different.bytes(&[1]).null().end(),
            place,
            6,
            one().system(2, "P", &[("b", 1, string)]).null().end(),
        ),
    ]
    .into_iter()
    .flatten()
    .collect()
}

/// Values lose nothing but their padding, and 7 and 07 stay different Decimals.
fn values() -> Vec<Case> {
    let items = |items: &[u8]| Stream::new().primitives(1, 3, DECIMAL, items).end();
    let members: [(&str, u8, &[u8]); 3] = [("a", 0, &[DECIMAL]), ("b", 0, &[BYTE]), ("c", 1, &[])];
    let object = |decimal: &[u8]| {
        Stream::new().system(1, "P", &members).bytes(decimal).bytes(&[9]).null().end()
    };
    let member = Stream::new().system(1, "P", &members).0.len();
    let string = |bytes: &[u8]| Stream::new().bytes(&[6]).int(1).bytes(bytes).end();
    let typed = |bytes: &[u8]| slots(1).typed(DECIMAL, bytes).end();
    let groups = [
        copied(
            "Decimals padded differently",
            items(b"\x017\x82\x0007\x81\x80\x80\x80\x007"),
            17,
            3,
            items(b"\x017\x0207\x017"),
        ),
        copied(
            "padded Decimal before another member",
            object(b"\x83\x80\x001.5"),
            member,
            6,
            object(b"\x031.5"),
        ),
        both("padded, not text", string(b"\x81\x00\xFF"), Refused(7, 17), Refused(8, 17)),
        both("padded, no Decimal", typed(b"\x83\x00-.5"), Refused(7, 26), Refused(11, 26)),
        both(
            "padded, the end in a Decimal",
            typed(b"\x84\x00-.5"),
            Refused(7, 26),
            Refused(11, 26),
        ),
    ];
    groups.into_iter().flatten().collect()
}

/// What comes before a padded prefix and what after it.
fn orders() -> Vec<Case> {
    let string = |start: Stream, id: i32| start.bytes(&[6]).int(id).bytes(b"\x84\x0012E5");
    let padded = || string(Stream::new(), 1).end();
    let class = Stream::new().bytes(&[4]).int(1).bytes(b"\x81\x00P").int(-1);
    let library = Stream::new().library(1, "L").bytes(&[12]).int(1).bytes(b"\x81\x00M");
    let later = string(listed(), 2).end();
    let tidied = listed().end();
    let groups = [
        both("id 0, padded", string(Stream::new(), 0), Refused(12, 17), Refused(12, 17)),
        both("used LibraryId, padded", library, Refused(12, 24), Refused(12, 24)),
        both("padded, member count -1", class, Refused(7, 17), Refused(9, 17)),
        both("padded, a byte after the end", padded().end(), Refused(7, 17), Refused(17, 29)),
        copied("padded, later record", later, 27, 4, listed().string(2, "12E5").end()),
        both("padded, full table", padded(), Refused(7, 17), Refused(16, 17))
            .into_iter()
            .map(|case| case.words(8))
            .collect(),
        copied("padded, output as large as the copy", padded(), 17, 3, tidied)
            .into_iter()
            .map(|case| case.out(28))
            .collect(),
    ];
    let [strict, lenient] =
        two(both("padded, output too small", padded(), Refused(7, 17), Accepted(3)));
    groups.into_iter().flatten().chain([strict.out(27), lenient.needs(27, 28)]).collect()
}
