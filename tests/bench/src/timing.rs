//! Times both readers and both tidiers on one list, and holds what they leave
//! against each other.

use bench::STRICT;
use independent_reader::fast;
use independent_reader::reader::{Reply, Setting, ROW_WORDS};

pub const MOST_TURNS: usize = 50;

/// No further turn is begun after so many seconds.
pub const TIME_FOR_TURNS: f64 = 1.0;

const FIRST_ROWS: usize = 1_024;

#[derive(Clone, Copy)]
pub struct Times {
    pub proved: f64,
    pub peer: f64,
}

impl Times {
    pub fn ratio(&self) -> String {
        short(self.proved / self.peer)
    }
}

/// A list with a table and an output that just fit, written before, so that
/// no turn pays for fresh memory.
pub struct Subject {
    pub stream: Vec<u8>,
    pub rows: usize,
    table: Vec<u32>,
    out: Vec<u8>,
}

impl Subject {
    pub fn of(stream: Vec<u8>) -> Subject {
        let (rows, length) = sizes(&stream);
        Subject { table: vec![1; rows * ROW_WORDS], out: vec![1; length], rows, stream }
    }

    pub fn read(&mut self) -> Times {
        let Subject { stream, table, rows, .. } = self;
        let proved = best(|| {
            let answer = bench::read(stream, &[], table, STRICT);
            assert_eq!((answer.number, answer.value), (0, *rows as u64), "at {}", answer.place);
        });
        let left = table.clone();
        table.fill(1);
        let peer =
            best(|| assert_eq!(fast::read(stream, table, Setting::Strict), Ok(*rows), "read"));
        assert!(left == *table, "the readers leave different tables");
        Times { proved, peer }
    }

    pub fn tidied(&mut self) -> Times {
        let Subject { stream, table, out, .. } = self;
        let length = out.len();
        let proved = best(|| {
            let answer = bench::tidy(stream, &[], table, out, STRICT);
            assert_eq!((answer.number, answer.value), (0, length as u64), "at {}", answer.place);
        });
        let left = (table.clone(), out.clone());
        table.fill(1);
        out.fill(1);
        let peer = best(|| {
            assert_eq!(fast::tidy(stream, table, out, Setting::Strict), Ok(length), "tidy")
        });
        assert!(left.0 == *table && left.1 == *out, "the tidiers leave different memory");
        Times { proved, peer }
    }
}

/// The rows of a list and the length of its copy.
fn sizes(stream: &[u8]) -> (usize, usize) {
    let mut table = vec![0; FIRST_ROWS * ROW_WORDS];
    let rows = loop {
        match fast::read(stream, &mut table, Setting::Strict) {
            Ok(rows) => break rows,
            Err(refusal) if refusal.number == Reply::NoRoom as u32 => {
                table = vec![0; 2 * table.len()];
            }
            Err(refusal) => panic!("the list is refused: {refusal:?}"),
        }
    };
    let full =
        fast::tidy(stream, &mut table, &mut [], Setting::Strict).expect_err("a copy has bytes");
    (rows, full.needed)
}

fn best(mut turn: impl FnMut()) -> f64 {
    let (mut best, mut all) = (f64::MAX, 0.0);
    for _ in 0..MOST_TURNS {
        if all > TIME_FOR_TURNS {
            break;
        }
        let taken = self::turn(&mut turn);
        best = best.min(taken);
        all += taken;
    }
    best
}

/// How long one turn takes.
pub fn turn(turn: impl FnOnce()) -> f64 {
    let start = processor_seconds();
    turn();
    processor_seconds() - start
}

#[repr(C)]
struct Timespec {
    seconds: i64,
    nanoseconds: i64,
}

extern "C" {
    fn clock_gettime(clock: i32, time: *mut Timespec) -> i32;
}

/// Linux's number of the clock that runs while this process does.
const PROCESS_CLOCK: i32 = 2;

fn processor_seconds() -> f64 {
    let mut time = Timespec { seconds: 0, nanoseconds: 0 };
    let failed = unsafe { clock_gettime(PROCESS_CLOCK, &mut time) };
    assert_eq!(failed, 0, "no clock of processor time");
    time.seconds as f64 + time.nanoseconds as f64 / 1e9
}

pub fn shown(seconds: f64) -> String {
    match seconds {
        1.0.. => format!("{seconds:.2} s"),
        1e-3.. => format!("{:.2} ms", seconds * 1e3),
        _ => format!("{:.1} µs", seconds * 1e6),
    }
}

/// With a digit behind the point where that is worth it.
pub fn short(number: f64) -> String {
    match number {
        ..0.1 => format!("{number:.5}"),
        ..10.0 => format!("{number:.1}"),
        _ => format!("{number:.0}"),
    }
}
