//! `write_book LIST.. > BOOK`: writes a class book with the classes of kinds 4 and
//! 5 of every list that is accepted, in order, each once. Says which lists are
//! refused and which classes it leaves out, and why. Padded prefixes are taken.

use independent_reader::books;
use independent_reader::corpus::refused;
use independent_reader::generate::Class;
use independent_reader::reader::{read_records, Setting};
use independent_reader::said;
use std::collections::HashSet;
use std::io::Write;
use std::process::ExitCode;

fn main() -> ExitCode {
    let names: Vec<String> = std::env::args().skip(1).collect();
    if names.is_empty() {
        eprintln!("write_book LIST.. > BOOK");
        return ExitCode::FAILURE;
    }
    match book_of(&names).and_then(|book| written(&book)) {
        Ok(()) => ExitCode::SUCCESS,
        Err(why) => {
            eprintln!("{why}");
            ExitCode::FAILURE
        }
    }
}

fn written(book: &[u8]) -> Result<(), String> {
    std::io::stdout().write_all(book).map_err(|error| error.to_string())
}

fn book_of(names: &[String]) -> Result<Vec<u8>, String> {
    let (mut book, mut left_out) = (Vec::new(), Vec::new());
    let mut seen: HashSet<Vec<u8>> = HashSet::new();
    for name in names {
        let stream = std::fs::read(name).map_err(|error| format!("{name}: {error}"))?;
        let reading = match read_records(&stream, usize::MAX, Setting::Lenient) {
            Ok(reading) => reading,
            Err(refusal) => {
                eprintln!("{name}: {}", refused(&refusal));
                continue;
            }
        };
        for class in reading.classes.iter().map(said::class) {
            match books::entry(&class) {
                Some(entry) if seen.insert(entry.clone()) => book.extend(entry),
                Some(_) => {}
                None => note(&class, &mut left_out),
            }
        }
    }
    Ok(book)
}

/// Each class that is left out is told of once.
fn note(class: &Class, left_out: &mut Vec<String>) {
    let library = class.library.map_or(String::new(), |library| format!(" of {library:?}"));
    let why = books::why_not(class).unwrap_or_default();
    let line = format!("left out: class {:?}{library}: {why}", class.name);
    if !left_out.contains(&line) {
        eprintln!("{line}");
        left_out.push(line);
    }
}
