//! Whether two lists say the same, taken straight from the rule and not by way
//! of tidy copies, so that the two can be held against each other.

use crate::reader::{self, Detail, Reading, Record, Terms};

/// One list as the rule looks at it.
struct Said<'r, 'a> {
    reading: &'r Reading<'a>,
    /// Place of each row's object in object order, counted from 1.
    order: Vec<u32>,
    next: usize,
    /// Nulls of the record at `next` that are compared already.
    passed: u32,
}

/// False also where a stream is refused: a refused stream says nothing. Each is
/// read under its own setting and with its own book.
pub fn same<'b>(streams: [&[u8]; 2], terms: [impl Into<Terms<'b>>; 2]) -> bool {
    let [of_a, of_b] = terms.map(Into::into);
    let [a, b] =
        [(streams[0], of_a), (streams[1], of_b)].map(|(stream, of)| read_whole(stream, of));
    let (Some(a), Some(b)) = (a, b) else {
        return false;
    };
    let (mut a, mut b) = (Said::new(&a), Said::new(&b));
    loop {
        a.skip_unsaid();
        b.skip_unsaid();
        match (a.record(), b.record()) {
            (None, None) => return true,
            (Some(one), Some(other)) => {
                if !agree(&mut a, one, &mut b, other) {
                    return false;
                }
            }
            _ => return false,
        }
    }
}

fn read_whole<'a>(stream: &'a [u8], terms: Terms) -> Option<Reading<'a>> {
    reader::read_records(stream, usize::MAX, terms).ok()
}

/// Compares the records that are next and passes what agrees.
fn agree(a: &mut Said, one: &Record, b: &mut Said, other: &Record) -> bool {
    if one.row.is_null_run() && other.row.is_null_run() {
        return agree_in_nulls(a, one, b, other);
    }
    let agrees = kind_alike(one) == kind_alike(other)
        && one.row.slot == other.row.slot
        && a.order_of(one.row.owner) == b.order_of(other.row.owner)
        && a.order_of_target(one) == b.order_of_target(other)
        && agree_in_detail(a, one, b, other);
    a.next += 1;
    b.next += 1;
    agrees
}

/// Nulls are compared as if each were a kind 10, but in strides: a run may be
/// two thousand million long.
fn agree_in_nulls(a: &mut Said, one: &Record, b: &mut Said, other: &Record) -> bool {
    let agrees = one.row.slot + a.passed == other.row.slot + b.passed
        && a.order_of(one.row.owner) == b.order_of(other.row.owner);
    let stride = (one.row.count - a.passed).min(other.row.count - b.passed);
    a.pass_nulls(one, stride);
    b.pass_nulls(other, stride);
    agrees
}

fn agree_in_detail(a: &Said, one: &Record, b: &Said, other: &Record) -> bool {
    match (&one.detail, &other.detail) {
        (Detail::Class(class), Detail::Class(class_b)) => {
            a.reading.classes[*class] == b.reading.classes[*class_b]
        }
        (detail, detail_b) => detail == detail_b,
    }
}

fn kind_alike(record: &Record) -> u8 {
    match record.row.kind {
        reader::CLASS_BY_ID..=reader::CLASS => reader::CLASS,
        kind => kind,
    }
}

impl<'r, 'a> Said<'r, 'a> {
    fn new(reading: &'r Reading<'a>) -> Said<'r, 'a> {
        let mut objects = 0;
        let mut order = Vec::new();
        for record in &reading.records {
            objects += u32::from(record.row.is_object());
            order.push(objects);
        }
        Said { reading, order, next: 0, passed: 0 }
    }

    fn record(&self) -> Option<&'r Record<'a>> {
        self.reading.records.get(self.next)
    }

    /// Passes library records and runs that fill no slot.
    fn skip_unsaid(&mut self) {
        while let Some(record) = self.record() {
            let empty_run = record.row.is_null_run() && record.row.count == 0;
            if record.row.kind != reader::LIBRARY && !empty_run {
                break;
            }
            self.next += 1;
        }
    }

    fn pass_nulls(&mut self, run: &Record, stride: u32) {
        self.passed += stride;
        if self.passed == run.row.count {
            self.next += 1;
            self.passed = 0;
        }
    }

    /// Object order of an owner or link word, 0 for none.
    fn order_of(&self, word: u32) -> u32 {
        match word {
            0 => 0,
            _ => self.order[word as usize - 1],
        }
    }

    /// Of a reference and of the header; the class record that a kind 1 names
    /// is no target.
    fn order_of_target(&self, record: &Record) -> u32 {
        match record.row.kind {
            reader::HEADER | reader::REFERENCE => self.order_of(record.row.link),
            _ => 0,
        }
    }
}
