//! A folder of real lists with what was noted of each in its expected.tsv:
//! name, tab, the outcome of reading and of the tidy copy.

use crate::reader::{read, Refusal, Setting, ROW_WORDS};
use std::path::Path;

/// Rows of the table that the lists are read into.
pub const ROWS: usize = 1_024;

/// Names and outcomes, in the file's order.
pub fn expected(folder: &Path) -> Result<Vec<(String, String)>, String> {
    let Ok(lines) = std::fs::read_to_string(folder.join("expected.tsv")) else {
        return Err("no expected.tsv there".to_string());
    };
    let pair = |line: &str| match line.split_once('\t') {
        Some((name, outcome)) => Ok((name.to_string(), outcome.to_string())),
        None => Err(format!("no tab in: {line}")),
    };
    lines.lines().map(pair).collect()
}

/// The part of an outcome that is about reading, which is strict.
pub fn reading(stream: &[u8]) -> String {
    let mut table = vec![0; ROWS * ROW_WORDS];
    match read(stream, &mut table, Setting::Strict) {
        Ok(rows) => format!("accepted {rows} {}", rows_hash(&table, rows)),
        Err(refusal) => refused(&refusal),
    }
}

pub fn refused(refusal: &Refusal) -> String {
    format!("refused {} at {}", refusal.number, refusal.place)
}

/// The hash of the first rows of a table.
pub fn rows_hash(table: &[u32], rows: usize) -> String {
    let words = table[..rows * ROW_WORDS].iter();
    format!("{:016x}", fnv_1a(words.flat_map(|word| word.to_le_bytes())))
}

/// Length and hash of a tidy copy.
pub fn copy_note(copy: &[u8]) -> String {
    format!("{} {:016x}", copy.len(), fnv_1a(copy.iter().copied()))
}

fn fnv_1a(bytes: impl Iterator<Item = u8>) -> u64 {
    let mut hash = 0xcbf2_9ce4_8422_2325_u64;
    for byte in bytes {
        hash = (hash ^ u64::from(byte)).wrapping_mul(0x0100_0000_01b3);
    }
    hash
}
