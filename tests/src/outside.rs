//! Streams noted with table, output and outcome, so that both sides are held to
//! more than each other: those written by hand and 120 made from a seed. A line
//! of outside.tsv has the stream in hex or `-`, the words of the table, the bytes
//! of the output and the outcome as in lists/expected.tsv, but `full` before a
//! needed length and `unknown` where the copy was not noted. All are strict.

use crate::cases::{from_hex, held, known, Case};
use crate::reader::Setting;

const NOTED: &str = include_str!("../outside.tsv");

pub fn cases() -> Result<Vec<Case>, String> {
    let case = |(at, line): (usize, &str)| {
        let number = at + 1;
        case(number, line).ok_or(format!("outside.tsv, line {number}: what is {line:?}?"))
    };
    NOTED.lines().enumerate().map(case).collect()
}

fn case(number: usize, line: &str) -> Option<Case> {
    let parts: Vec<&str> = line.split('\t').collect();
    let [hex, words, room, outcome] = parts[..] else {
        return None;
    };
    let stream = if hex == "-" { Vec::new() } else { from_hex(hex)? };
    let known = held(known(outcome)?, &stream, Setting::Strict.into());
    Some(Case {
        what: format!("outside {number}"),
        stream,
        book: Vec::new(),
        words: words.parse().ok()?,
        room: Some(room.parse().ok()?),
        setting: Setting::Strict,
        known,
        is_list: false,
    })
}

#[cfg(test)]
mod tests {
    use super::*;
    use crate::by_hand;
    use crate::corpus::{copy_note, refused, rows_hash};
    use crate::{read, tidy};
    use std::collections::HashSet;

    /// The outcome as it is noted.
    fn outcome(case: &Case) -> String {
        let (mut table, mut out) = (vec![0; case.words], vec![0; case.room.unwrap()]);
        let reading = match read(&case.stream, &mut table, case.setting) {
            Ok(rows) => format!("accepted {rows} {}", rows_hash(&table, rows)),
            Err(refusal) => refused(&refusal),
        };
        let tidying = match tidy(&case.stream, &mut table, &mut out, case.setting) {
            Ok(length) => copy_note(&out[..length]),
            Err(refusal) if refusal.needed > 0 => format!("full {}", refusal.needed),
            Err(refusal) => refused(&refusal),
        };
        format!("{reading} tidy {tidying}")
    }

    #[test]
    fn all_657_have_the_outcome_noted() {
        let cases = cases().unwrap();
        assert_eq!(cases.len(), 657);
        let mut unknown = 0;
        for (case, line) in cases.iter().zip(NOTED.lines()).filter(|(case, _)| case.known.is_some())
        {
            let (_, noted) = line.rsplit_once('\t').unwrap();
            let found = outcome(case);
            if let Some(reading) = noted.strip_suffix(" tidy unknown") {
                unknown += 1;
                assert!(found.starts_with(reading), "{}: {found}", case.what);
            } else {
                assert_eq!(found, noted, "{}", case.what);
            }
        }
        assert_eq!(unknown, 3);
    }

    /// What is written by hand is noted, with the same table and output, but for
    /// the streams of the two settings and those with a class book.
    #[test]
    fn those_by_hand_are_among_them() {
        let noted: HashSet<(Vec<u8>, usize, usize)> = cases()
            .unwrap()
            .into_iter()
            .map(|case| (case.stream, case.words, case.room.unwrap()))
            .collect();
        let by_hand = by_hand::under_strict();
        let there =
            |case: &&by_hand::Case| noted.contains(&(case.stream.clone(), case.words, case.out));
        let count = by_hand.iter().filter(there).count();
        assert_eq!((noted.len(), by_hand.len(), count), (657, 537, 537));
        let with_books = by_hand::with_books().len();
        assert_eq!(by_hand::cases().len() - by_hand.len() - with_books, 1_104);
    }
}
