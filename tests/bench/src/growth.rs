//! How the time of reading and tidying grows with the rows.

use crate::timing::{shown, Subject, Times};
use crate::{lists, Point};

pub const ROWS: [usize; 7] = [1_000, 3_000, 10_000, 30_000, 100_000, 300_000, 1_000_000];

/// A series ends after a run that takes the proved job longer: with three times
/// the rows the next could take some ten times as long.
const LONGEST_BUT_LAST: f64 = 0.2;

pub struct Series {
    pub name: &'static str,
    pub points: Vec<Point>,
}

pub fn all() -> [Series; 2] {
    [series("small rows", lists::values), series("texts and references", lists::references)]
}

/// Tidying takes some two readings, so it is not begun where reading is not.
fn series(name: &'static str, list: fn(usize) -> Vec<u8>) -> Series {
    let mut points = Vec::new();
    let (mut reads, mut tidies) = (true, true);
    for rows in ROWS {
        eprintln!("{name}, {rows}");
        let mut subject = Subject::of(list(rows));
        let read = reads.then(|| subject.read());
        let tidied = (reads && tidies).then(|| subject.tidied());
        (reads, tidies) = (is_short(read), is_short(tidied));
        points.push(Point { rows, read, tidied });
    }
    Series { name, points }
}

fn is_short(times: Option<Times>) -> bool {
    times.is_some_and(|times| times.proved <= LONGEST_BUT_LAST)
}

pub fn table(all: &[Series]) -> String {
    let mut text = String::from(
        "| list | rows | read, proved | read, peer | times the peer | tidy, proved | tidy, peer | times the peer |\n\
         |---|---:|---:|---:|---:|---:|---:|---:|\n",
    );
    for series in all {
        for point in &series.points {
            let (read, tidied) = (cells(point.read), cells(point.tidied));
            text += &format!("| {} | {} | {read} | {tidied} |\n", series.name, point.rows);
        }
    }
    text + &format!(
        "\n\"Not run\": the same with fewer rows took the proved job more than {LONGEST_BUT_LAST} s.\n"
    )
}

fn cells(times: Option<Times>) -> String {
    match times {
        Some(times) => {
            format!("{} | {} | {}", shown(times.proved), shown(times.peer), times.ratio())
        }
        None => "not run | not run | –".to_string(),
    }
}
