//! The streams and outputs on which the proved tidier is compared with this
//! one, and the lists whose copies must be equal.

use crate::books;
use crate::cases::Case;
use crate::generate::{self, List, Random};
use crate::padding::padded;
use crate::reader::{read_records, Setting, Terms, ROW_WORDS, STREAM_LIMIT};
use crate::said;
use crate::show::{byte_trace, written, MOST_WORDS};
use crate::tidy::copy_of;

/// One stream with the sizes of its table and its output.
pub struct Tidying {
    pub what: String,
    pub stream: Vec<u8>,
    pub book: Vec<u8>,
    pub words: usize,
    pub room: usize,
    pub setting: Setting,
    pub demand: Demand,
}

impl Tidying {
    pub fn terms(&self) -> Terms<'_> {
        self.setting.with(&self.book)
    }
}

/// What must hold of the program's line besides that this tidier agrees.
#[derive(Clone, PartialEq)]
pub enum Demand {
    None,
    /// What was noted of the copy, which fills the output.
    Noted(String),
    /// The stream is a tidy copy, so its copy is the stream itself, and what
    /// the program answers and leaves is the same under both settings.
    Unchanged,
    /// The stream says what all streams of the group say, so the copies are
    /// equal.
    OneCopy(usize),
}

/// Packings of one list.
const PACKINGS: usize = 4;

/// The copy, where the stream is accepted with such a table.
pub fn copy_in<'b>(stream: &[u8], words: usize, terms: impl Into<Terms<'b>>) -> Option<Vec<u8>> {
    read_records(stream, words / ROW_WORDS, terms).ok().map(|reading| copy_of(&reading))
}

/// A case under both settings, with its own output, where it has one, and with
/// the usual ones; and its copy as a stream, under both.
pub fn of_case(case: &Case) -> Vec<Tidying> {
    let under = |setting| own_output(case, setting).into_iter().chain(usual_outputs(case, setting));
    let all = Setting::BOTH.into_iter().flat_map(under);
    all.chain(copy_again(case)).collect()
}

fn tidying(case: &Case, what: &str, room: usize, setting: Setting) -> Tidying {
    Tidying {
        what: format!("{}, {what}, {setting:?}", case.what),
        stream: case.stream.clone(),
        book: case.book.clone(),
        words: case.words,
        room,
        setting,
        demand: Demand::None,
    }
}

fn own_output(case: &Case, setting: Setting) -> Option<Tidying> {
    case.room.map(|room| tidying(case, "its own output", room, setting))
}

/// An accepted stream with outputs that are larger than the copy, as large, one
/// byte too small and empty; a refused one with one output.
fn usual_outputs(case: &Case, setting: Setting) -> Vec<Tidying> {
    let Some(copy) = copy_in(&case.stream, case.words, case.terms(setting)) else {
        return vec![tidying(case, "refused", case.stream.len() % 64, setting)];
    };
    let length = copy.len();
    let known = case.known_under(setting).and_then(|known| known.copy.clone());
    let noted = known.map_or(Demand::None, Demand::Noted);
    vec![
        tidying(case, "output larger", length + 1 + length % 40, setting),
        Tidying { demand: noted, ..tidying(case, "output as large", length, setting) },
        tidying(case, "output one byte too small", length - 1, setting),
        tidying(case, "output empty", 0, setting),
    ]
}

/// The copy for the same table. A strict reading has the copy of the lenient
/// one, where there is one.
fn copy_again(case: &Case) -> Vec<Tidying> {
    let Some(copy) = copy_in(&case.stream, case.words, case.terms(Setting::Lenient)) else {
        return Vec::new();
    };
    // A copy over the limit is never written, and too large as a stream.
    let fits = copy.len() <= STREAM_LIMIT;
    let again = |setting| Tidying {
        stream: copy.clone(),
        demand: if fits { Demand::Unchanged } else { Demand::None },
        ..tidying(case, "its copy", copy.len(), setting)
    };
    Setting::BOTH.map(again).into()
}

/// Lists made from a seed and those among the cases, each packed in many ways:
/// other ids, null runs split and empty ones put in, libraries doubled and not
/// needed, whole classes in place of kind 1, other HeaderIds, and for the lenient
/// setting prefixes padded. The copy of each list is among its group. With `books`
/// most packings leave types to a class book of their own.
pub fn repacked(seed: u64, lists: usize, cases: &[Case], books: bool) -> Vec<Tidying> {
    let mut random = Random::new(seed);
    let mut all = Vec::new();
    for group in 0..lists {
        let list = generate::list(&mut random);
        let what = format!("repacked list {group}");
        let streams = packings(&list, books, &mut random);
        all.extend(group_of(group, &what, streams, &mut random));
    }
    for (at, case) in cases.iter().filter(|case| case.is_list).enumerate() {
        let Ok(reading) = read_records(&case.stream, MOST_ROWS, case.terms(Setting::Lenient))
        else {
            continue;
        };
        let mut streams = packings(&said::list(&reading), books, &mut random);
        streams.push((case.stream.clone(), case.book.clone()));
        let what = format!("repacked {}", case.what);
        all.extend(group_of(lists + at, &what, streams, &mut random));
    }
    all
}

pub const MOST_ROWS: usize = MOST_WORDS / ROW_WORDS;

/// A stream and the class book that it is read with.
pub type Packing = (Vec<u8>, Vec<u8>);

fn packings(list: &List, books: bool, random: &mut Random) -> Vec<Packing> {
    (0..PACKINGS).map(|_| packing(list, books, random)).collect()
}

/// Without a book, or with one that was made for the list.
pub fn packing(list: &List, books: bool, random: &mut Random) -> Packing {
    let has_book = books && random.chance(75);
    let entries = if has_book { books::made_for(list, random) } else { Vec::new() };
    (generate::pack_with(&entries, list, random), books::bytes(&entries))
}

/// Each stream under both settings, and padded under the lenient one. Streams
/// with more rows than the largest table has are left out.
fn group_of(
    group: usize,
    what: &str,
    mut streams: Vec<Packing>,
    random: &mut Random,
) -> Vec<Tidying> {
    let copied = |(stream, book): &Packing| copy_in(stream, MOST_WORDS, Setting::Strict.with(book));
    streams.retain(|packing| copied(packing).is_some());
    let Some(copy) = streams.first().and_then(copied) else {
        return Vec::new();
    };
    let room = copy.len();
    streams.push((copy, Vec::new()));
    let tidying = |stream, book: &[u8], setting| Tidying {
        what: format!("{what}, {setting:?}"),
        stream,
        book: book.to_vec(),
        words: MOST_WORDS,
        room,
        setting,
        demand: Demand::OneCopy(group),
    };
    let mut all = Vec::new();
    for (stream, book) in streams {
        all.push(tidying(padded(&stream, &book, random), &book, Setting::Lenient));
        all.push(tidying(stream.clone(), &book, Setting::Lenient));
        all.push(tidying(stream, &book, Setting::Strict));
    }
    all
}

/// What a line says of a copy that fills the output: its length and the hash
/// of its bytes.
pub fn copy_part(line: &str) -> Option<(String, String)> {
    let words: Vec<&str> = line.split(' ').collect();
    match words[..] {
        ["written", length, _, _, first, second] => {
            Some((format!("written {length}"), format!("{first} {second}")))
        }
        _ => None,
    }
}

/// What the line says where the copy is these bytes.
pub fn part_of(copy: &[u8]) -> (String, String) {
    (written(copy.len()), byte_trace(copy))
}

#[cfg(test)]
mod tests {
    use super::*;
    use crate::cases::generated;

    #[test]
    fn outputs_have_all_the_odd_sizes() {
        let cases = generated(7, 400, &[], true);
        for setting in Setting::BOTH {
            let mut seen = [0; 5];
            for case in &cases {
                let Some(copy) = copy_in(&case.stream, case.words, case.terms(setting)) else {
                    continue;
                };
                for one in of_case(case).iter().filter(|one| one.setting == setting) {
                    seen[0] += usize::from(one.room == 0);
                    seen[1] += usize::from(one.room + 1 == copy.len());
                    seen[2] += usize::from(one.room == copy.len());
                    seen[3] += usize::from(one.room > copy.len());
                    seen[4] += usize::from(one.room % ROW_WORDS > 0);
                }
            }
            assert!(seen.iter().all(|&seen| seen > 100), "{setting:?}: {seen:?}");
        }
    }

    /// Every copy of a group is the same, padded or not.
    #[test]
    fn groups_have_padded_packings_and_one_copy() {
        let all = repacked(7, 200, &[], true);
        let is_padded = |one: &&Tidying| {
            copy_in(&one.stream, MOST_WORDS, Setting::Strict.with(&one.book)).is_none()
        };
        assert!(all.iter().filter(is_padded).count() > 400);
        assert!(all.iter().filter(|one| !one.book.is_empty()).count() > 400);
        for one in &all {
            let copy = copy_in(&one.stream, one.words, one.terms()).expect(&one.what);
            assert_eq!(copy.len(), one.room, "{}", one.what);
        }
    }
}
