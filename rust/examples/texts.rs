//! Reads a list of at most 65,536 bytes from standard input and prints its texts, then how long its tidy copy is.

use std::error::Error;
use std::fmt::Display;
use std::io::{stdin, stdout, Read, Write};
use std::process::exit;
use strelinga::{read, rows, text, tidy, Refusal, Setting, ROW_WORDS};

const BYTES: usize = 65_536;

fn refused(refusal: Refusal, place: impl Display) -> ! {
    println!("refused {} at {place}", refusal.number());
    exit(1);
}

fn main() -> Result<(), Box<dyn Error>> {
    let mut stream = Vec::new();
    stdin().take(BYTES as u64 + 1).read_to_end(&mut stream)?;
    if stream.len() > BYTES {
        println!("more than {BYTES} bytes");
        exit(2);
    }
    let mut table = vec![0; 8192 * ROW_WORDS];
    let mut copy = vec![0; 2 * BYTES];

    // Ask for texts with the setting with which the list was read. Without a class book it is read with an empty one.
    let setting = Setting::Strict;
    let book = [];

    match read(&stream, &book, &mut table, setting) {
        Ok(count) => println!("accepted {count}"),
        Err(e) => refused(e.refusal, e.place),
    }

    for number in 0..rows(&table).count() {
        if let Some(text) = text(&stream, &table, number, setting) {
            print!("row {number}: ");
            stdout().write_all(text)?;
            println!();
        }
    }

    match tidy(&stream, &book, &mut table, &mut copy, setting) {
        Ok(length) => println!("tidy copy: {length} of {} bytes", stream.len()),
        Err(e) => refused(e.refusal(), e.place()),
    }
    Ok(())
}
