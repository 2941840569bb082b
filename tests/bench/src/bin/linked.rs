//! `linked read|tidy|view|same SETTING`: takes streams from standard input as the proved
//! comparing programs do and prints the same lines, but calls the C forms and
//! has space for streams, tables and outputs of any size. `view` takes the
//! words of each table too, and no class book, and prints what its rows show. SETTING
//! is the number that the jobs are given. `same` takes none: a second stream, the
//! settings of both and their books come with each, and it prints what the comparing
//! job answers and leaves.

use independent_reader::show::{byte_trace, littered, trace};
use independent_reader::views::{rows_asked, Views};
use std::io::{self, BufWriter, Read, Write};

fn main() -> io::Result<()> {
    let words: Vec<String> = std::env::args().skip(1).collect();
    let (job, setting) = match &words.iter().map(String::as_str).collect::<Vec<_>>()[..] {
        ["same"] => ("same", None),
        [job, setting] => (*job, setting.parse().ok()),
        _ => ("", None),
    };
    let mut input = io::stdin().lock();
    let mut output = BufWriter::new(io::stdout().lock());
    while let Some(bytes) = size(&mut input) {
        let line = match (job, setting) {
            ("read", Some(setting)) => read(&mut input, bytes, setting)?,
            ("tidy", Some(setting)) => tidy(&mut input, bytes, setting)?,
            ("view", Some(setting)) => view(&mut input, bytes, setting)?,
            ("same", None) => same(&mut input, bytes)?,
            _ => return Err(io::Error::other("linked read|tidy|view SETTING, or linked same")),
        };
        writeln!(output, "{line}")?;
    }
    output.flush()
}

/// Nothing where the input ends.
fn size(input: &mut impl Read) -> Option<usize> {
    let mut bytes = [0; 4];
    input.read_exact(&mut bytes).ok()?;
    Some(u32::from_le_bytes(bytes) as usize)
}

fn next_size(input: &mut impl Read) -> io::Result<usize> {
    size(input).ok_or(io::Error::from(io::ErrorKind::UnexpectedEof))
}

fn taken(input: &mut impl Read, bytes: usize) -> io::Result<Vec<u8>> {
    let mut taken = vec![0; bytes];
    input.read_exact(&mut taken)?;
    Ok(taken)
}

fn refused(answer: &bench::Answer) -> String {
    format!("refused {} at {}", answer.number, answer.place)
}

fn read(input: &mut impl Read, bytes: usize, setting: u32) -> io::Result<String> {
    let (words, book_bytes) = (next_size(input)?, next_size(input)?);
    let (stream, book) = (taken(input, bytes)?, taken(input, book_bytes)?);
    let (mut table, _) = littered(words, 0);
    let answer = bench::read(&stream, &book, &mut table, setting);
    let said = match answer.number {
        0 => format!("accepted {}", answer.value),
        _ => refused(&answer),
    };
    Ok(format!("{said} {}", trace(&table)))
}

fn tidy(input: &mut impl Read, bytes: usize, setting: u32) -> io::Result<String> {
    let (words, room, book_bytes) = (next_size(input)?, next_size(input)?, next_size(input)?);
    let (stream, book) = (taken(input, bytes)?, taken(input, book_bytes)?);
    let (mut table, mut out) = littered(words, room);
    let answer = bench::tidy(&stream, &book, &mut table, &mut out, setting);
    let said = match answer.number {
        0 => format!("written {}", answer.value),
        20 => format!("full {}", answer.value),
        _ => refused(&answer),
    };
    Ok(format!("{said} {} {}", trace(&table), byte_trace(&out)))
}

fn view(input: &mut impl Read, bytes: usize, setting: u32) -> io::Result<String> {
    let words = next_size(input)?;
    let stream = taken(input, bytes)?;
    let table: Vec<u32> = taken(input, 4 * words)?
        .chunks_exact(4)
        .map(|word| u32::from_le_bytes([word[0], word[1], word[2], word[3]]))
        .collect();
    let mut views = Views::default();
    for row in rows_asked(words) {
        let (reply, part) = bench::text_view(&stream, &table, row, setting);
        if reply != bench::row_question(&stream, &table, row, setting) {
            return Ok(format!("the row question and the text view differ at row {row}"));
        }
        views.note(reply, &stream[part]);
    }
    Ok(views.line())
}

fn same(input: &mut impl Read, bytes: usize) -> io::Result<String> {
    let (other_bytes, words) = (next_size(input)?, next_size(input)?);
    let (room, other_room) = (next_size(input)?, next_size(input)?);
    let settings = [next_size(input)? as u32, next_size(input)? as u32];
    let book_bytes = [next_size(input)?, next_size(input)?];
    let (a, b) = (taken(input, bytes)?, taken(input, other_bytes)?);
    let (a_book, b_book) = (taken(input, book_bytes[0])?, taken(input, book_bytes[1])?);
    let (mut table, mut first) = littered(words, room);
    let (_, mut second) = littered(0, other_room);
    let lists = ([&a[..], &a_book], [&b[..], &b_book]);
    let answer =
        bench::say_the_same(lists.0, lists.1, &mut table, &mut first, &mut second, settings);
    Ok(answer.line(&table, [&first, &second]))
}
