//! A third reader and tidier, written for speed: one pass over the stream, rows
//! written once, ids found by hash, the copy measured and then written once.
//! The proved jobs are timed beside it, and it is held to the same outcomes.

mod book;
mod classes;
mod copy;
mod cursor;
mod found;
mod ids;
mod reader;
mod slots;

use crate::reader::{Refusal, Reply, Terms, ROW_WORDS, STREAM_LIMIT};
use copy::{Length, Output, Walk};

/// Fills the table with the rows of the stream and answers their number.
pub fn read<'b>(
    stream: &[u8],
    table: &mut [u32],
    terms: impl Into<Terms<'b>>,
) -> Result<usize, Refusal> {
    let answer = read_within_limit(stream, table, terms.into()).map(|found| found.rows);
    if answer.is_err() {
        table.fill(0);
    }
    answer
}

fn read_within_limit<'a>(
    stream: &'a [u8],
    table: &mut [u32],
    terms: Terms,
) -> Result<found::Found<'a>, Refusal> {
    if stream.len() > STREAM_LIMIT {
        return Err(Refusal::at(Reply::TooLarge, 0));
    }
    reader::read(stream, table, terms)
}

/// Writes the tidy copy and answers its length; the table gets the reading of
/// the stream.
pub fn tidy<'b>(
    stream: &[u8],
    table: &mut [u32],
    out: &mut [u8],
    terms: impl Into<Terms<'b>>,
) -> Result<usize, Refusal> {
    let answer = copy_into(stream, table, out, terms.into());
    if answer.is_err() {
        table.fill(0);
    }
    answer
}

fn copy_into(
    stream: &[u8],
    table: &mut [u32],
    out: &mut [u8],
    terms: Terms,
) -> Result<usize, Refusal> {
    let found = read_within_limit(stream, table, terms)?;
    let rows = &table[..found.rows * ROW_WORDS];
    let classes = classes::by_first(stream, &found);
    let needed = Walk::new(&found, &classes, Length::default()).over(rows).bytes;
    if needed > out.len().min(STREAM_LIMIT) {
        return Err(Refusal::out_full(needed));
    }
    Walk::new(&found, &classes, Output::new(stream, out)).over(rows);
    Ok(needed)
}

#[cfg(test)]
mod tests;
