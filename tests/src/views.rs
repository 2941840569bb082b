//! Tables for the row question and the text view: what a reading leaves, and
//! rows that were never read.

use crate::generate::Random;
use crate::padding;
use crate::reader::{row_answer, row_text, Setting, ROW_WORDS, STRING};
use crate::show::trace;

/// Rows that are asked for besides those of the table.
const BEYOND: [u64; 3] = [0, 1, u64::MAX];

/// The most rows of a table that no reading left.
const MOST_PLANTED: usize = 8;

/// The rows to ask for: all, and some that the table does not have.
pub fn rows_asked(words: usize) -> impl Iterator<Item = u64> {
    let rows = (words / ROW_WORDS) as u64;
    (0..rows).chain(BEYOND.map(|more| rows.saturating_add(more)))
}

/// What the rows of a table show: how many have a text, and a hash of every
/// reply, length and text.
#[derive(Default)]
pub struct Views {
    pub texts: usize,
    seen: Vec<u32>,
}

impl Views {
    /// `text` is what the text view hands back.
    pub fn note(&mut self, reply: u32, text: &[u8]) {
        self.texts += usize::from(reply == 0);
        self.seen.extend([reply, text.len() as u32]);
        self.seen.extend(text.iter().map(|&byte| u32::from(byte)));
    }

    pub fn line(&self) -> String {
        format!("texts {} {}", self.texts, trace(&self.seen))
    }
}

pub fn found_views(stream: &[u8], table: &[u32], setting: Setting) -> Views {
    let mut views = Views::default();
    for row in rows_asked(table.len()) {
        let row = usize::try_from(row).unwrap_or(usize::MAX);
        let text = row_text(stream, table, row, setting).unwrap_or(&[]);
        views.note(row_answer(stream, table, row, setting), text);
    }
    views
}

/// Rows of kind 6, or nearly, at places that may hold a string record, ending
/// where its text ends, or nearly.
pub fn planted(stream: &[u8], random: &mut Random) -> Vec<u32> {
    let places: Vec<usize> =
        (0..stream.len()).filter(|&place| stream[place] == STRING).take(64).collect();
    let mut table = Vec::new();
    for _ in 0..random.below(MOST_PLANTED + 1) {
        let any = places.is_empty() || random.chance(15);
        let place = if any { random.below(stream.len() + 2) } else { random.pick(&places) };
        let (length, bytes) = padding::at(stream, place + 5).unwrap_or((0, 1));
        let end = place + 5 + bytes + length + random.pick(&[1, 1, 1, 1, 2, 0]);
        let end = (end - 1) as u32;
        let kind = random.pick(&[6, 6, 6, 6, 6, 5, 262]);
        let far = random.chance(5);
        table.extend([kind, if far { u32::MAX } else { place as u32 }, end, 0, 0, 0, 0, 0]);
    }
    table.resize(table.len() + random.below(ROW_WORDS), u32::from(STRING));
    table
}

#[cfg(test)]
mod tests {
    use super::*;
    use crate::stream::Stream;

    /// How many of the rows planted in a stream show a text, and of how many.
    fn shown(stream: &[u8], setting: Setting) -> (usize, usize) {
        let mut random = Random::new(1);
        let (mut texts, mut rows) = (0, 0);
        for _ in 0..100 {
            let table = planted(stream, &mut random);
            rows += table.len() / ROW_WORDS;
            texts += found_views(stream, &table, setting).texts;
        }
        (texts, rows)
    }

    #[test]
    fn some_planted_rows_show_a_text() {
        let stream = Stream::new().string(1, "12E5").end().0;
        let padded =
            Stream::new().bytes(&[6]).int(1).bytes(&[0x84, 0x80, 0]).bytes(b"12E5").end().0;
        for (stream, setting) in
            [(&stream, Setting::Strict), (&stream, Setting::Lenient), (&padded, Setting::Lenient)]
        {
            let (texts, rows) = shown(stream, setting);
            assert!(texts > rows / 4 && texts < rows, "{texts} of {rows}");
        }
        assert_eq!(shown(&padded, Setting::Strict).0, 0);
    }
}
