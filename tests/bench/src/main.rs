//! `bench DOCS LIST TAKEN`: times the proved reader and tidier beside their peer,
//! the fast ones of this folder, in one run on the same lists, and writes all
//! tables but one of DOCS/BENCHMARKS.md and the picture DOCS/growth.svg. LIST is a real
//! list; TAKEN says where and when.
//!
//! `bench beside DOCS TAKEN BEFORE AGAIN AFTER`: times two builds of the proved
//! jobs, the first of them twice, on lists of texts, and writes the table of
//! texts. Each is a folder of shared objects.

mod beside;
mod document;
mod growth;
mod lists;
mod picture;
mod timing;

use growth::Series;
use std::path::Path;
use timing::{Subject, Times, MOST_TURNS, TIME_FOR_TURNS};

const USE: &str = "bench DOCS LIST TAKEN, or bench beside DOCS TAKEN BEFORE AGAIN AFTER";

fn main() -> Result<(), String> {
    let words: Vec<String> = std::env::args().skip(1).collect();
    match &words.iter().map(String::as_str).collect::<Vec<_>>()[..] {
        [docs, list, taken] => peers(Path::new(docs), list, taken),
        ["beside", docs, taken, before, again, after] => {
            builds(Path::new(docs), taken, [before, again, after])
        }
        _ => Err(USE.to_string()),
    }
}

fn peers(docs: &Path, list: &str, taken: &str) -> Result<(), String> {
    let real = std::fs::read(list).map_err(|error| format!("{list}: {error}"))?;
    let mut page = document::Page::open(&docs.join("BENCHMARKS.md"))?;
    page.write("taken", &taken_line(taken))?;
    page.write("speed", &speed(real))?;
    let series = growth::all();
    page.write("growth", &growth::table(&series))?;
    page.save()?;
    let drawn = picture::drawn(&series);
    std::fs::write(docs.join("growth.svg"), drawn).map_err(|error| error.to_string())
}

fn builds(docs: &Path, taken: &str, folders: [&str; 3]) -> Result<(), String> {
    let [before, again, after] = folders.map(beside::Build::open);
    let table = beside::table(&[before?, again?, after?]);
    let mut page = document::Page::open(&docs.join("BENCHMARKS.md"))?;
    let turns = beside::TURNS;
    let taken = format!("Taken on {taken}. Processor time of one process; the best of {turns} turns of each of the four copies counts.\n");
    page.write("texts", &format!("{taken}\n{table}"))?;
    page.save()
}

fn taken_line(taken: &str) -> String {
    format!(
        "Taken on {taken}. Times are processor time of this one process.\n\
         The best of {MOST_TURNS} turns counts; no further turn is begun once the turns took {TIME_FOR_TURNS} s together.\n"
    )
}

/// Tidying a list is left out where reading it takes the proved job longer.
const LONGEST_READING: f64 = 5.0;

fn speed(real: Vec<u8>) -> String {
    let subjects = [
        ("100,000 small rows", Subject::of(lists::values(100_000))),
        ("200,000 nulls", Subject::of(lists::nulls(200_000))),
        ("20,000 texts", Subject::of(lists::texts(20_000))),
        ("20,000 objects", Subject::of(lists::members(20_000))),
        ("16 MiB of numbers", Subject::of(lists::numbers())),
        ("big_20000_nodes", Subject::of(real)),
    ];
    let mut text = String::from(
        "| list | bytes | rows | job | proved | peer | times the peer | proved, ns a row | peer, ns a row |\n\
         |---|---:|---:|---|---:|---:|---:|---:|---:|\n",
    );
    for (name, mut subject) in subjects {
        eprintln!("{name}");
        let read = subject.read();
        text += &line(name, &subject, "read", Some(read));
        let tidied = (read.proved <= LONGEST_READING).then(|| subject.tidied());
        text += &line(name, &subject, "tidy", tidied);
    }
    text + &format!(
        "\n\"Not run\": reading the list took the proved job more than {LONGEST_READING} s.\n"
    )
}

fn line(name: &str, subject: &Subject, job: &str, times: Option<Times>) -> String {
    let (bytes, rows) = (subject.stream.len(), subject.rows);
    let times = match times {
        None => "not run | not run | – | – | –".to_string(),
        Some(times) => {
            let Times { proved, peer } = times;
            let (by_row, peer_by_row) = (a_row(proved, rows), a_row(peer, rows));
            let (proved, peer) = (timing::shown(proved), timing::shown(peer));
            format!("{proved} | {peer} | {} | {by_row} | {peer_by_row}", times.ratio())
        }
    };
    format!("| {name} | {bytes} | {rows} | {job} | {times} |\n")
}

/// Nanoseconds a row, where there are rows enough for that to say anything.
fn a_row(seconds: f64, rows: usize) -> String {
    match rows {
        FEWEST_ROWS.. => timing::short(seconds * 1e9 / rows as f64),
        _ => "–".to_string(),
    }
}

const FEWEST_ROWS: usize = 1_000;

/// Both jobs of both programs.
#[derive(Clone, Copy)]
struct Point {
    rows: usize,
    read: Option<Times>,
    tidied: Option<Times>,
}

impl Series {
    /// The times of one job, by rows.
    fn of_job(&self, job: fn(&Point) -> Option<Times>) -> Vec<(usize, Times)> {
        let points = self.points.iter();
        points.filter_map(|point| job(point).map(|times| (point.rows, times))).collect()
    }
}
