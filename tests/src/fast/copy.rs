//! The tidy copy, record by record from the rows of the reading: measured first,
//! then written.

use super::classes::Firsts;
use super::found::{prefix, Class, Found, Padded, Use};
use crate::reader::*;

/// Bytes of a kind and a number.
const HEAD: usize = 5;

/// Takes the bytes of the copy in order: those of the stream that are kept, and
/// others.
pub trait Sink {
    fn keep(&mut self, from: usize, to: usize);
    fn put<const N: usize>(&mut self, bytes: [u8; N]);
    fn put_all(&mut self, bytes: &[u8]);
}

#[derive(Default)]
pub struct Length {
    pub bytes: usize,
}

impl Sink for Length {
    #[inline]
    fn keep(&mut self, from: usize, to: usize) {
        self.bytes += to - from;
    }

    #[inline]
    fn put<const N: usize>(&mut self, _: [u8; N]) {
        self.bytes += N;
    }

    fn put_all(&mut self, bytes: &[u8]) {
        self.bytes += bytes.len();
    }
}

/// Kept bytes that lie side by side are copied at once.
pub struct Output<'o> {
    stream: &'o [u8],
    out: &'o mut [u8],
    at: usize,
    kept: (usize, usize),
}

impl<'o> Output<'o> {
    pub fn new(stream: &'o [u8], out: &'o mut [u8]) -> Output<'o> {
        Output { stream, out, at: 0, kept: (0, 0) }
    }

    #[inline]
    fn flush(&mut self) {
        let (from, to) = self.kept;
        if from < to {
            self.kept = (to, to);
            self.write(&self.stream[from..to]);
        }
    }

    #[inline]
    fn write(&mut self, bytes: &[u8]) {
        self.out[self.at..self.at + bytes.len()].copy_from_slice(bytes);
        self.at += bytes.len();
    }
}

impl Sink for Output<'_> {
    #[inline]
    fn keep(&mut self, from: usize, to: usize) {
        if from != self.kept.1 {
            self.flush();
            self.kept.0 = from;
        }
        self.kept.1 = to;
    }

    #[inline]
    fn put<const N: usize>(&mut self, bytes: [u8; N]) {
        self.flush();
        self.write(&bytes);
    }

    fn put_all(&mut self, bytes: &[u8]) {
        self.flush();
        self.write(bytes);
    }
}

pub struct Walk<'n, 'a, S> {
    found: &'n Found<'a>,
    firsts: &'n Firsts,
    sink: S,
    /// Objects so far, objects of classes so far, and uses so far.
    number: u32,
    class_objects: usize,
    uses: usize,
    /// Padded prefixes that are yet to come.
    padded: &'n [Padded],
    /// By library: its number once it is written, else 0.
    library_numbers: Vec<u32>,
    last_library: u32,
}

impl<'n, 'a, S: Sink> Walk<'n, 'a, S> {
    pub fn new(found: &'n Found<'a>, firsts: &'n Firsts, sink: S) -> Walk<'n, 'a, S> {
        Walk {
            found,
            firsts,
            sink,
            number: 0,
            class_objects: 0,
            uses: 0,
            padded: &found.padded,
            library_numbers: vec![0; found.libraries.len()],
            last_library: 0,
        }
    }

    /// Null runs of one owner with nothing written between them lie side by
    /// side, so they are written where something else follows.
    pub fn over(mut self, rows: &[u32]) -> S {
        let (mut nulls, mut nulls_of) = (0, 0);
        for row in rows.chunks_exact(ROW_WORDS) {
            let &[kind, offset, end, id, owner, _, _, count] = row else { continue };
            match kind as u8 {
                LIBRARY => {}
                NULL | SHORT_RUN | LONG_RUN if owner == nulls_of => nulls += count,
                NULL | SHORT_RUN | LONG_RUN => {
                    self.write_nulls(nulls);
                    (nulls, nulls_of) = (count, owner);
                }
                kind => {
                    self.write_nulls(nulls);
                    nulls = 0;
                    self.record(kind, offset as usize, end as usize, id as i32);
                }
            }
        }
        self.sink
    }

    #[inline]
    fn write_nulls(&mut self, count: u32) {
        match count {
            0 => {}
            1 => self.sink.put([NULL]),
            2..=255 => self.sink.put([SHORT_RUN, count as u8]),
            _ => self.head(LONG_RUN, count),
        }
    }

    #[inline]
    fn record(&mut self, kind: u8, offset: usize, end: usize, id: i32) {
        match kind {
            TYPED_PRIMITIVE | MEMBER_VALUE => self.keep(offset, end),
            REFERENCE => self.head(REFERENCE, self.number_of(id)),
            CLASS_BY_ID => {
                self.number += 1;
                let (_, first) = self.next_class();
                self.later_object(first);
            }
            SYSTEM_CLASS | CLASS | UNTYPED_SYSTEM_CLASS | UNTYPED_CLASS => {
                self.number += 1;
                match self.next_class() {
                    (_, first) if first < self.number => self.later_object(first),
                    (class, _) if kind < SYSTEM_CLASS => self.spelled_out(class),
                    _ => self.naming_libraries(kind, offset, end),
                }
            }
            BINARY_ARRAY => {
                self.number += 1;
                self.naming_libraries(kind, offset, end);
            }
            HEADER => self.header(self.number_of(id)),
            END => self.sink.put([END]),
            _ => {
                self.number += 1;
                self.head(kind, self.number);
                self.keep(offset + HEAD, end);
            }
        }
    }

    /// Bytes of the stream, but for padded prefixes, which get shorter. What is
    /// kept goes up in the stream, and what lies between is passed.
    #[inline]
    fn keep(&mut self, from: usize, to: usize) {
        match self.padded {
            [first, ..] if first.place < to => self.keep_shorter(from, to),
            _ => self.sink.keep(from, to),
        }
    }

    #[cold]
    fn keep_shorter(&mut self, mut from: usize, to: usize) {
        while let [first, later @ ..] = self.padded {
            if first.place >= to {
                break;
            }
            if first.place >= from {
                self.sink.keep(from, first.place);
                self.prefix(first.length);
                from = first.end;
            }
            self.padded = later;
        }
        self.sink.keep(from, to);
    }

    /// The number of the object that an id names.
    #[inline]
    fn number_of(&self, id: i32) -> u32 {
        self.found.objects.get(id).map_or(0, |object| object.number)
    }

    /// The next object's class, and the number of the first object of that.
    #[inline]
    fn next_class(&mut self) -> (&'n Class, u32) {
        let class = self.found.class_of[self.class_objects] as usize;
        self.class_objects += 1;
        (&self.found.classes[class], self.firsts.classes[class])
    }

    #[inline]
    fn head(&mut self, kind: u8, number: u32) {
        let [a, b, c, d] = number.to_le_bytes();
        self.sink.put([kind, a, b, c, d]);
    }

    fn header(&mut self, root: u32) {
        self.head(HEADER, root);
        for number in [root, 1, 0] {
            self.sink.put(number.to_le_bytes());
        }
    }

    #[inline]
    fn later_object(&mut self, first: u32) {
        self.head(CLASS_BY_ID, self.number);
        self.sink.put(first.to_le_bytes());
    }

    /// A record whose types or class name libraries, behind those that it is
    /// the first to need.
    fn naming_libraries(&mut self, kind: u8, offset: usize, end: usize) {
        let found = self.found;
        let rest = &found.uses[self.uses..];
        let before = rest.iter().take_while(|one| one.place < offset).count();
        let own = rest[before..].iter().take_while(|one| one.place < end).count();
        let uses = &rest[before..before + own];
        self.uses += before + own;
        uses.iter().for_each(|one| self.need(one));
        self.head(kind, self.number);
        let mut from = offset + HEAD;
        for one in uses {
            self.keep(from, one.place);
            self.sink.put(self.library_numbers[self.first(one)].to_le_bytes());
            from = one.place + 4;
        }
        self.keep(from, end);
    }

    /// A class whose types the book said; it needs its own library alone.
    fn spelled_out(&mut self, class: &Class) {
        let found = self.found;
        let own = &found.uses[class.first_use..class.last_use];
        own.iter().for_each(|one| self.need(one));
        self.head(if class.is_system { SYSTEM_CLASS } else { CLASS }, self.number);
        self.keep(class.from, class.to);
        self.sink.put_all(found.spelled_of(class));
        for one in own {
            self.sink.put(self.library_numbers[self.first(one)].to_le_bytes());
        }
    }

    fn first(&self, one: &Use) -> usize {
        self.firsts.libraries[one.library as usize] as usize
    }

    /// Writes the library record unless an equal name has one already.
    fn need(&mut self, one: &Use) {
        let library = self.first(one);
        if self.library_numbers[library] > 0 {
            return;
        }
        self.last_library += 1;
        self.library_numbers[library] = self.last_library;
        self.head(LIBRARY, self.last_library);
        let name = self.found.libraries[library];
        self.prefix(name.len());
        self.sink.put_all(name);
    }

    fn prefix(&mut self, length: usize) {
        prefix(length).for_each(|byte| self.sink.put([byte]));
    }
}
