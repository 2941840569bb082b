//! Times two builds of the proved jobs beside each other on lists of texts, turn
//! by turn in one run. How fast a short loop is depends on where in memory it
//! stands, so each build is there several times, laid out at other places, and
//! its best turn counts.

use crate::lists;
use crate::timing;
use bench::STRICT;
use independent_reader::reader::ROW_WORDS;
use std::ffi::{c_char, c_int, c_void, CString};

type Read = unsafe extern "C" fn(
    *const u8,
    usize,
    *const u8,
    usize,
    *mut u32,
    usize,
    u32,
    *mut u64,
    *mut u64,
) -> u32;

type TextView =
    unsafe extern "C" fn(*const u8, usize, *const u32, usize, u64, u32, *mut u64, *mut u64) -> u32;

extern "C" {
    fn dlopen(path: *const c_char, mode: c_int) -> *mut c_void;
    fn dlsym(library: *mut c_void, name: *const c_char) -> *mut c_void;
}

/// All that a library needs is found as it is opened, and stays its own.
const NOW_AND_LOCAL: c_int = 2;

/// One build, several times.
pub struct Build(Vec<Library>);

impl Build {
    /// The shared objects of a folder.
    pub fn open(folder: &str) -> Result<Build, String> {
        let entries = std::fs::read_dir(folder).map_err(|error| format!("{folder}: {error}"))?;
        let mut paths = Vec::new();
        for entry in entries {
            let path = entry.map_err(|error| error.to_string())?.path();
            paths.push(path.to_str().ok_or(format!("{path:?} is no text"))?.to_string());
        }
        let libraries: Result<Vec<_>, _> = paths.iter().map(|path| Library::open(path)).collect();
        let libraries = libraries?;
        if libraries.is_empty() {
            Err(format!("{folder} is empty"))
        } else {
            Ok(Build(libraries))
        }
    }
}

/// The jobs of a shared object.
struct Library {
    read: Read,
    text_view: TextView,
}

impl Library {
    fn open(path: &str) -> Result<Library, String> {
        let name = CString::new(path).map_err(|error| error.to_string())?;
        let library = unsafe { dlopen(name.as_ptr(), NOW_AND_LOCAL) };
        if library.is_null() {
            return Err(format!("{path} does not open"));
        }
        let job = |name: &str| {
            let known = CString::new(name).map_err(|error| error.to_string())?;
            let job = unsafe { dlsym(library, known.as_ptr()) };
            if job.is_null() {
                Err(format!("{path} has no {name}"))
            } else {
                Ok(job)
            }
        };
        // The C forms, as strelinga.h has them.
        let read = unsafe { std::mem::transmute::<*mut c_void, Read>(job("strelinga_read")?) };
        let text_view = job("strelinga_text_view")?;
        let text_view = unsafe { std::mem::transmute::<*mut c_void, TextView>(text_view) };
        Ok(Library { read, text_view })
    }

    /// The rows of a list.
    fn read(&self, stream: &[u8], table: &mut [u32]) -> usize {
        let (mut place, mut rows) = (0, 0);
        let (start, words) = (table.as_mut_ptr(), table.len());
        let (bytes, stream) = (stream.len(), stream.as_ptr());
        let (book, none) = (std::ptr::null(), 0);
        let number = unsafe {
            (self.read)(stream, bytes, book, none, start, words, STRICT, &mut place, &mut rows)
        };
        assert_eq!(number, 0, "refused at {place}");
        rows as usize
    }

    /// The bytes of the texts that a table's rows show.
    fn viewed(&self, stream: &[u8], table: &[u32]) -> u64 {
        let view = |row: usize| {
            let (mut from, mut size) = (0, 0);
            let (start, words) = (table.as_ptr(), table.len());
            let (bytes, row, stream) = (stream.len(), row as u64, stream.as_ptr());
            let (from, length) = (&mut from, &mut size);
            unsafe { (self.text_view)(stream, bytes, start, words, row, STRICT, from, length) };
            size
        };
        (0..table.len() / ROW_WORDS).map(view).sum()
    }
}

const TEXTS: usize = 20_000;

type Text = fn(usize) -> String;

/// Part numbers as they come, and texts whose scalars have two, three and four
/// bytes each; 36 to 39 bytes.
const KINDS: [(&str, Text); 5] = [
    ("ASCII", lists::part),
    ("Cyrillic letters", |n| scalars(0x410, 64, 19, n)),
    ("Cyrillic words and digits", |n| format!("губка {n:06}, цех 7, стел {}", n % 10)),
    ("three bytes each", |n| scalars(0x4E00, 2000, 13, n)),
    ("four bytes each", |n| scalars(0x1F600, 64, 9, n)),
];

/// Scalars among the `count` from `first` on.
fn scalars(first: u32, count: u32, length: u32, n: usize) -> String {
    let scalar = |k: u32| char::from_u32(first + (n as u32 * 5 + k * 7) % count);
    (0..length).map(|k| scalar(k).expect("a scalar value")).collect()
}

/// The earlier build, the same once more, and the present one: how much the
/// first two differ is how much is chance.
pub fn table(builds: &[Build; 3]) -> String {
    let mut lines = String::from(
        "| texts | job | before | before, once more | after | once more: times as long | after: times as long | before, ns a text | after, ns a text |\n\
         |---|---|---:|---:|---:|---:|---:|---:|---:|\n",
    );
    let present = &builds[2].0[0];
    for (kind, text) in KINDS {
        eprintln!("{kind}");
        let strings = lists::strings(TEXTS, text);
        let names = lists::names(TEXTS, text);
        let (mut one, mut other) = (filled(present, &strings), filled(present, &names));
        let reading = best(builds, |library| library.read(&strings, &mut one) as u64);
        lines += &line(kind, "read, each an object", reading);
        let reading = best(builds, |library| library.read(&names, &mut other) as u64);
        lines += &line(kind, "read, names of members", reading);
        let viewing = best(builds, |library| library.viewed(&strings, &one));
        lines += &line(kind, "text view of each", viewing);
    }
    lines
}

/// The table of a list, just large enough.
fn filled(library: &Library, stream: &[u8]) -> Vec<u32> {
    let mut table = vec![0; (TEXTS + 8) * ROW_WORDS];
    let rows = library.read(stream, &mut table);
    table.truncate(rows * ROW_WORDS);
    table
}

pub const TURNS: usize = 30;

/// The best turn of each build; what they answer is the same.
fn best(builds: &[Build; 3], mut job: impl FnMut(&Library) -> u64) -> [f64; 3] {
    let answer = job(&builds[2].0[0]);
    let mut best = [f64::MAX; 3];
    for _ in 0..TURNS {
        for (best, build) in best.iter_mut().zip(builds) {
            for library in &build.0 {
                let taken = timing::turn(|| assert_eq!(job(library), answer, "the builds differ"));
                *best = best.min(taken);
            }
        }
    }
    best
}

fn line(kind: &str, job: &str, [before, again, after]: [f64; 3]) -> String {
    let a_text = |seconds: f64| format!("{:.1}", seconds * 1e9 / TEXTS as f64);
    let [first, second, third] = [before, again, after].map(timing::shown);
    let (chance, change) = (again / before, after / before);
    let (first_each, third_each) = (a_text(before), a_text(after));
    format!(
        "| {kind} | {job} | {first} | {second} | {third} | {chance:.2} | {change:.2} | {first_each} | {third_each} |\n"
    )
}
