//! Prints what the listing program prints for standard input or for each file
//! named; with `--tidy` also the tidy copy in hex, with `--lenient` under the
//! lenient setting, with `--book FILE` with a class book; with `--corpus DIR` holds a folder of lists against its
//! expected.tsv.

use independent_reader::corpus::{self, copy_note, refused};
use independent_reader::{read, tidy, Setting, Terms};
use std::io::Read;
use std::path::Path;
use std::process::ExitCode;

const LISTING_BYTES: usize = 65_535;
const LISTING_ROWS: usize = corpus::ROWS;
const TIDY_ROWS: usize = 1_048_576;
const TIDY_BYTES: usize = 16_777_216;

fn main() -> ExitCode {
    let mut arguments: Vec<String> = std::env::args().skip(1).collect();
    if arguments.first().is_some_and(|first| first == "--corpus") {
        return match arguments.get(1) {
            Some(folder) => corpus(Path::new(folder)),
            None => fail("--corpus needs a folder"),
        };
    }
    let with_tidy = taken(&mut arguments, "--tidy");
    let setting = match taken(&mut arguments, "--lenient") {
        true => Setting::Lenient,
        false => Setting::Strict,
    };
    let book = match book(&mut arguments) {
        Ok(book) => book,
        Err(why) => return fail(&why),
    };
    let terms = setting.with(&book);
    if arguments.is_empty() {
        let mut stream = Vec::new();
        return match std::io::stdin().read_to_end(&mut stream) {
            Ok(_) => show(&stream, terms, with_tidy),
            Err(error) => fail(&error.to_string()),
        };
    }
    for name in &arguments {
        match std::fs::read(name) {
            Ok(stream) => drop(show(&stream, terms, with_tidy)),
            Err(error) => return fail(&format!("{name}: {error}")),
        }
    }
    ExitCode::SUCCESS
}

/// Whether the switch is there; it is not among the arguments afterwards.
fn taken(arguments: &mut Vec<String>, switch: &str) -> bool {
    let there = arguments.iter().any(|argument| argument == switch);
    arguments.retain(|argument| argument != switch);
    there
}

/// The class book whose file is named behind `--book`; neither word is among the
/// arguments afterwards.
fn book(arguments: &mut Vec<String>) -> Result<Vec<u8>, String> {
    let Some(at) = arguments.iter().position(|argument| argument == "--book") else {
        return Ok(Vec::new());
    };
    let words: Vec<String> = arguments.drain(at..arguments.len().min(at + 2)).collect();
    let name = words.get(1).ok_or("--book needs a file")?;
    std::fs::read(name).map_err(|error| format!("{name}: {error}"))
}

fn fail(why: &str) -> ExitCode {
    eprintln!("{why}");
    ExitCode::FAILURE
}

fn show(stream: &[u8], terms: Terms, with_tidy: bool) -> ExitCode {
    print!("{}", listing(stream, terms));
    if with_tidy {
        println!("{}", tidy_line(stream, terms));
    }
    ExitCode::SUCCESS
}

fn listing(stream: &[u8], terms: Terms) -> String {
    if stream.len() > LISTING_BYTES {
        return "refused 1 at 0\n".to_string();
    }
    let mut table = vec![0; LISTING_ROWS * 8];
    match read(stream, &mut table, terms) {
        Ok(rows) => format!("accepted {rows}\n{}", row_lines(&table[..rows * 8])),
        Err(refusal) => format!("{}\n", refused(&refusal)),
    }
}

fn row_lines(words: &[u32]) -> String {
    let line = |row: &[u32]| row.iter().map(u32::to_string).collect::<Vec<_>>().join(" ") + "\n";
    words.chunks(8).map(line).collect()
}

fn tidy_line(stream: &[u8], terms: Terms) -> String {
    let mut table = vec![0; TIDY_ROWS * 8];
    let mut out = vec![0; TIDY_BYTES];
    match tidy(stream, &mut table, &mut out, terms) {
        Ok(length) => out[..length].iter().map(|byte| format!("{byte:02X}")).collect(),
        Err(refusal) => format!("tidy {}", refused(&refusal)),
    }
}

fn corpus(folder: &Path) -> ExitCode {
    let expected = match corpus::expected(folder) {
        Ok(expected) => expected,
        Err(why) => return fail(&why),
    };
    let mut agreements = 0;
    for (name, wanted) in &expected {
        let found = match std::fs::read(folder.join(name)) {
            Ok(stream) => corpus_outcome(&stream),
            Err(error) => error.to_string(),
        };
        if found == *wanted {
            agreements += 1;
        } else {
            println!("{name}\n  wanted {wanted}\n  found  {found}");
        }
    }
    println!("{agreements} of {} agree", expected.len());
    if agreements == expected.len() {
        ExitCode::SUCCESS
    } else {
        ExitCode::FAILURE
    }
}

fn corpus_outcome(stream: &[u8]) -> String {
    format!("{} {}", corpus::reading(stream), corpus_tidy(stream))
}

fn corpus_tidy(stream: &[u8]) -> String {
    let mut table = vec![0; TIDY_ROWS * 8];
    let mut out = vec![0; TIDY_BYTES];
    match tidy(stream, &mut table, &mut out, Setting::Strict) {
        Ok(length) => format!("tidy {}", copy_note(&out[..length])),
        Err(refusal) => format!("tidy {}", refused(&refusal)),
    }
}
