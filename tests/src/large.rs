//! Streams around the stream limit, and lists with more rows than the comparing
//! programs have space for. They go through the C forms.

use crate::by_hand::Outcome::{self, Accepted, Refused};
use crate::cases::{Case, Known};
use crate::padding;
use crate::reader::{Setting, ROW_WORDS, STREAM_LIMIT};
use crate::stream::Stream;

const BYTE: u8 = 2;

/// Bytes of a list of one array of Byte, its items left out.
const AROUND_ITEMS: usize = 28;

/// Bytes of a list of one string with a prefix of four bytes, its text left
/// out.
const AROUND_TEXT: usize = 27;

/// Words for a few rows, with a broken last one.
const FEW_WORDS: usize = 8 * ROW_WORDS + 5;

const MANY_ROWS: usize = 1_000_000;

const LONGEST_LIST: usize = 65_536;

/// `lists` are real ones; those that had no room elsewhere are read whole here,
/// but for those so long that the benchmark alone reads them.
pub fn large(lists: &[Case]) -> Vec<Case> {
    let mut all = around_the_limit();
    all.extend(long_texts());
    all.extend(growing_copies());
    all.push(many_rows());
    all.extend(lists.iter().filter(|list| had_no_room(list)).map(whole));
    all
}

fn had_no_room(list: &Case) -> bool {
    let answer = list.known.as_ref().and_then(|known| known.answer.as_ref());
    let refused = answer.is_some_and(|answer| answer.starts_with("refused 16 "));
    refused && list.stream.len() <= LONGEST_LIST
}

fn case(what: &str, stream: Stream, words: usize, outcome: Outcome) -> Case {
    let answer = Some(match outcome {
        Accepted(rows) => format!("accepted {rows}"),
        Refused(number, place) => format!("refused {number} at {place}"),
    });
    let known = Some(Known { answer, rows: None, copy: None });
    let (what, stream, setting) = (format!("large: {what}"), stream.0, Setting::Strict);
    Case { what, stream, book: Vec::new(), words, room: None, setting, known, is_list: false }
}

fn items(count: usize) -> Stream {
    Stream::new().primitives(1, count as i32, BYTE, &vec![6; count])
}

fn around_the_limit() -> Vec<Case> {
    let most = STREAM_LIMIT - AROUND_ITEMS;
    let cut = Stream::new().primitives(1, most as i32 + 2, BYTE, &vec![6; most + 1]);
    vec![
        case("as long as may be", items(most).end(), FEW_WORDS, Accepted(3)),
        case("as long as may be, no row for the end", items(most).end(), 23, Refused(16, LAST)),
        case("one byte longer", items(most + 1).end(), FEW_WORDS, Refused(1, 0)),
        case("one byte longer, no words", items(most + 1).end(), 0, Refused(1, 0)),
        case("an item is missing", cut, FEW_WORDS, Refused(2, 17)),
        case("a byte after the end", items(most - 1).end().end(), FEW_WORDS, Refused(17, LAST)),
    ]
}

/// Place of the last byte of the longest stream.
const LAST: usize = STREAM_LIMIT - 1;

fn long_texts() -> Vec<Case> {
    let length = STREAM_LIMIT - AROUND_TEXT;
    let text = format!("A{}", "\u{e9}".repeat(length / 2));
    let whole = Stream::new().string(1, &text[..length]).end();
    let mut bad = whole.clone();
    bad.0[LAST - 1] = b'A';
    vec![
        case("one text", whole, FEW_WORDS, Accepted(3)),
        case("one text, bad at its end", bad, FEW_WORDS, Refused(8, 17)),
        Case { setting: Setting::Lenient, ..padded_text() },
    ]
}

/// As long as may be; the prefix has a byte more than it needs.
fn padded_text() -> Case {
    let length = STREAM_LIMIT - AROUND_TEXT - 1;
    let prefix = padding::in_bytes(length, padding::MOST_BYTES).expect("five bytes are enough");
    let start = Stream::new().bytes(&[6]).int(1).bytes(&prefix);
    let stream = start.bytes(&vec![b'A'; length]).end();
    case("one text, padded", stream, FEW_WORDS, Accepted(3))
}

/// A run of 255 and one of 1 become one that is two bytes longer.
fn growing_copies() -> Vec<Case> {
    let growing = |length: usize| {
        let rest = Stream::default().objects(2, 256).nulls(255).null().end();
        let count = length - (AROUND_ITEMS - 1) - rest.0.len();
        let what = format!("{length} bytes, copy two bytes longer");
        case(&what, items(count).bytes(&rest.0), FEW_WORDS, Accepted(6))
    };
    vec![growing(STREAM_LIMIT - 2), growing(STREAM_LIMIT - 1), growing(STREAM_LIMIT)]
}

fn many_rows() -> Case {
    let slots = Stream::new().objects(1, MANY_ROWS as i32);
    let stream = slots.bytes(&vec![10; MANY_ROWS]).end();
    case("many rows", stream, (MANY_ROWS + 3) * ROW_WORDS, Accepted(MANY_ROWS + 3))
}

/// A list with a row for each byte, which is more than any list needs.
fn whole(list: &Case) -> Case {
    let copy = list.known.as_ref().and_then(|known| known.copy.clone());
    Case {
        what: format!("large: whole {}", list.what),
        stream: list.stream.clone(),
        book: Vec::new(),
        words: list.stream.len() * ROW_WORDS,
        room: None,
        setting: Setting::Strict,
        known: Some(Known { answer: None, rows: None, copy }),
        is_list: true,
    }
}

#[cfg(test)]
mod tests {
    use super::*;
    use crate::show::found;

    #[test]
    fn each_gets_the_answer_written_beside_it() {
        for case in large(&[]) {
            let found = found(&case.stream, case.words, case.setting);
            let answer = case.known.and_then(|known| known.answer);
            assert_eq!(Some(found.answer), answer, "{}", case.what);
        }
    }
}
