//! A folder of cases that show what customers asked to have changed. A line of
//! its manifest.tsv has the case's name, its job, switches and the file;
//! NAME.expected has what the listing and the tidy copy print.

use crate::cases::{from_hex, held, Case, Known};
use crate::corpus::{copy_note, rows_hash, ROWS};
use crate::reader::{Setting, ROW_WORDS};
use std::path::Path;

/// What stands above the two parts of NAME.expected.
const LISTING: &str = "listing (room for 1,024 rows):\n";
const COPY: &str = "tidy (hex):\n";

/// Another job than the listing with the tidy copy, or a switch that there is
/// not, is an error.
pub fn cases(folder: &Path) -> Result<Vec<Case>, String> {
    let manifest = text(folder, "manifest.tsv")?;
    manifest.lines().map(|line| case(folder, line)).collect()
}

fn text(folder: &Path, name: &str) -> Result<String, String> {
    std::fs::read_to_string(folder.join(name)).map_err(|error| format!("{name}: {error}"))
}

fn case(folder: &Path, line: &str) -> Result<Case, String> {
    let parts: Vec<&str> = line.split('\t').collect();
    let what = || format!("manifest.tsv: what is {line:?}?");
    let [name, "batch", switches, file] = parts[..] else {
        return Err(what());
    };
    let switches = Switches::from(switches).ok_or_else(what)?;
    let bytes =
        |file: &str| std::fs::read(folder.join(file)).map_err(|error| format!("{file}: {error}"));
    let (stream, setting) = (bytes(file)?, switches.setting);
    let book = switches.book.map_or(Ok(Vec::new()), bytes)?;
    let expected = text(folder, &format!("{name}.expected"))?;
    let known = known(&expected, switches.row_words);
    let known = known.ok_or(format!("{name}.expected: what is {expected:?}?"))?;
    Ok(Case {
        what: format!("change {name}"),
        known: held(known, &stream, setting.with(&book)),
        stream,
        book,
        words: ROWS * ROW_WORDS,
        room: None,
        setting,
        is_list: false,
    })
}

struct Switches<'s> {
    setting: Setting,
    book: Option<&'s str>,
    /// Of the rows that the case lists; those of a table come first.
    row_words: usize,
}

impl<'s> Switches<'s> {
    fn from(switches: &'s str) -> Option<Switches<'s>> {
        let mut found = Switches { setting: Setting::Strict, book: None, row_words: ROW_WORDS };
        let mut words = switches.split_ascii_whitespace();
        while let Some(word) = words.next() {
            match word {
                "--lenient" => found.setting = Setting::Lenient,
                "--ten" => found.row_words = 10,
                "--book" => found.book = Some(words.next()?),
                _ => return None,
            }
        }
        Some(found)
    }
}

fn known(expected: &str, row_words: usize) -> Option<Known> {
    let (listing, copy) = expected.strip_prefix(LISTING)?.split_once(COPY)?;
    let (answer, rows) = listing.split_once('\n')?;
    let words = rows.split_ascii_whitespace().map(|word| word.parse().ok());
    let words: Vec<u32> = words.collect::<Option<_>>()?;
    let copy = copy.trim_end();
    let note = match copy.strip_prefix("refused ") {
        Some(_) if copy == answer => None,
        Some(_) => return None,
        None => Some(copy_note(&from_hex(copy)?)),
    };
    let rows = words.len() / row_words;
    let table: Vec<u32> =
        words.chunks(row_words).flat_map(|row| &row[..ROW_WORDS.min(row.len())]).copied().collect();
    let is_accepted = answer == format!("accepted {rows}");
    let hash = is_accepted.then(|| rows_hash(&table, rows));
    let is_known = is_accepted || (answer.starts_with("refused ") && words.is_empty());
    is_known.then(|| Known { answer: Some(answer.to_string()), rows: hash, copy: note })
}

#[cfg(test)]
mod tests {
    use super::*;
    use crate::corpus::refused;
    use crate::reader::UNTYPED_TAKEN;
    use crate::{read, tidy};

    const OUTPUT: usize = 65_536;

    /// What this reader and tidier find, as it is known.
    fn found(case: &Case) -> (String, Option<String>, Option<String>) {
        let (mut table, mut out) = (vec![0; case.words], vec![0; OUTPUT]);
        let reading = read(&case.stream, &mut table, case.terms(case.setting));
        let rows = reading.as_ref().ok().map(|&rows| rows_hash(&table, rows));
        let answer = match reading {
            Ok(rows) => format!("accepted {rows}"),
            Err(refusal) => refused(&refusal),
        };
        let copied = tidy(&case.stream, &mut table, &mut out, case.terms(case.setting));
        (answer, rows, copied.ok().map(|length| copy_note(&out[..length])))
    }

    #[test]
    fn all_are_as_a_right_reader_has_them() {
        let folder = Path::new(env!("CARGO_MANIFEST_DIR")).join("changes");
        let cases = cases(&folder).unwrap();
        assert_eq!(cases.len(), 123);
        assert_eq!(cases.iter().filter(|case| case.setting.is_lenient()).count(), 32);
        assert_eq!(cases.iter().filter(|case| !case.book.is_empty()).count(), 72);
        let mut unknown = 0;
        for case in cases {
            let Some(known) = case.known.clone() else {
                unknown += 1;
                continue;
            };
            let known = (known.answer.unwrap(), known.rows, known.copy);
            assert_eq!(found(&case), known, "{}", case.what);
        }
        assert_eq!(unknown > 0, !UNTYPED_TAKEN);
    }

    #[test]
    fn an_outcome_that_is_none_is_seen() {
        let of = |listing: &str, copy: &str| {
            known(&format!("{LISTING}{listing}{COPY}{copy}"), ROW_WORDS)
        };
        assert!(of("refused 11 at 26\n", "refused 11 at 26\n").is_some());
        assert!(of("refused 11 at 26\n", "refused 2 at 26\n").is_none());
        assert!(of("accepted 1\n0 0 17 1 0 0 2 0\n", "00\n").is_some());
        assert!(of("accepted 2\n0 0 17 1 0 0 2 0\n", "00\n").is_none());
        assert!(of("accepted 1\n0 0 17 1 0 0 2 0\n", "0g\n").is_none());
    }

    /// The first eight of ten words are the row's.
    #[test]
    fn words_that_the_table_has_not_are_passed() {
        let of = |rows: &str, row_words| {
            known(&format!("{LISTING}accepted 2\n{rows}{COPY}00\n"), row_words).unwrap().rows
        };
        let eight = of("1 2 3 4 5 6 7 8\n11 12 13 14 15 16 17 18\n", 8);
        assert_eq!(of("1 2 3 4 5 6 7 8 9 9\n11 12 13 14 15 16 17 18 9 9\n", 10), eight);
        assert_ne!(of("1 2 3 4 5 6 7 9 9 9\n11 12 13 14 15 16 17 18 9 9\n", 10), eight);
    }

    #[test]
    fn another_switch_is_an_error() {
        assert!(Switches::from("--lenient --ten --book books/A.book").is_some());
        assert!(Switches::from("--lenient --book").is_none());
        assert!(Switches::from("--calls").is_none());
    }
}
