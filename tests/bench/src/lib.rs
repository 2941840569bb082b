//! The proved jobs, called through their C forms.

use independent_reader::pairs::Comparison;
use std::ops::Range;

extern "C" {
    fn strelinga_read(
        stream: *const u8,
        bytes: usize,
        book: *const u8,
        book_bytes: usize,
        table: *mut u32,
        words: usize,
        setting: u32,
        place: *mut u64,
        rows: *mut u64,
    ) -> u32;

    fn strelinga_row_question(
        stream: *const u8,
        bytes: usize,
        table: *const u32,
        words: usize,
        row: u64,
        setting: u32,
    ) -> u32;

    fn strelinga_text_view(
        stream: *const u8,
        bytes: usize,
        table: *const u32,
        words: usize,
        row: u64,
        setting: u32,
        from: *mut u64,
        length: *mut u64,
    ) -> u32;

    fn strelinga_tidy(
        stream: *const u8,
        bytes: usize,
        book: *const u8,
        book_bytes: usize,
        table: *mut u32,
        words: usize,
        out: *mut u8,
        room: usize,
        setting: u32,
        place: *mut u64,
        length: *mut u64,
    ) -> u32;

    fn strelinga_say_the_same(
        a: *const u8,
        a_bytes: usize,
        a_book: *const u8,
        a_book_bytes: usize,
        b: *const u8,
        b_bytes: usize,
        b_book: *const u8,
        b_book_bytes: usize,
        table: *mut u32,
        words: usize,
        first: *mut u8,
        first_room: usize,
        second: *mut u8,
        second_room: usize,
        a_setting: u32,
        b_setting: u32,
        same: *mut u64,
        list: *mut u64,
        place: *mut u64,
        needed: *mut u64,
    ) -> u32;
}

/// Stands in each number that the comparing job hands out before it does.
const LITTER: u64 = 0xA5A5_A5A5_A5A5_A5A5;

/// Number, place, and rows or length, as the C form hands them out.
pub struct Answer {
    pub number: u32,
    pub place: u64,
    pub value: u64,
}

/// The strict setting's number; every other one is lenient.
pub const STRICT: u32 = 0;

// The jobs take any bytes, words and settings; pointers and counts below are those of live slices that do not overlap.

pub fn read(stream: &[u8], book: &[u8], table: &mut [u32], setting: u32) -> Answer {
    let (mut place, mut value) = (0, 0);
    let number = unsafe {
        strelinga_read(
            stream.as_ptr(),
            stream.len(),
            book.as_ptr(),
            book.len(),
            table.as_mut_ptr(),
            table.len(),
            setting,
            &mut place,
            &mut value,
        )
    };
    Answer { number, place, value }
}

pub fn tidy(stream: &[u8], book: &[u8], table: &mut [u32], out: &mut [u8], setting: u32) -> Answer {
    let (mut place, mut value) = (0, 0);
    let number = unsafe {
        strelinga_tidy(
            stream.as_ptr(),
            stream.len(),
            book.as_ptr(),
            book.len(),
            table.as_mut_ptr(),
            table.len(),
            out.as_mut_ptr(),
            out.len(),
            setting,
            &mut place,
            &mut value,
        )
    };
    Answer { number, place, value }
}

pub fn row_question(stream: &[u8], table: &[u32], row: u64, setting: u32) -> u32 {
    let (bytes, words) = (stream.len(), table.len());
    unsafe { strelinga_row_question(stream.as_ptr(), bytes, table.as_ptr(), words, row, setting) }
}

/// The reply, and where the text lies in the stream.
pub fn text_view(stream: &[u8], table: &[u32], row: u64, setting: u32) -> (u32, Range<usize>) {
    let (mut from, mut length) = (0, 0);
    let number = unsafe {
        strelinga_text_view(
            stream.as_ptr(),
            stream.len(),
            table.as_ptr(),
            table.len(),
            row,
            setting,
            &mut from,
            &mut length,
        )
    };
    (number, from as usize..(from + length) as usize)
}

/// What is handed out holds a pattern before, as the table and the outputs do.
pub fn say_the_same(
    [a, a_book]: [&[u8]; 2],
    [b, b_book]: [&[u8]; 2],
    table: &mut [u32],
    first: &mut [u8],
    second: &mut [u8],
    [a_setting, b_setting]: [u32; 2],
) -> Comparison {
    let [mut same, mut list, mut place, mut needed] = [LITTER; 4];
    let number = unsafe {
        strelinga_say_the_same(
            a.as_ptr(),
            a.len(),
            a_book.as_ptr(),
            a_book.len(),
            b.as_ptr(),
            b.len(),
            b_book.as_ptr(),
            b_book.len(),
            table.as_mut_ptr(),
            table.len(),
            first.as_mut_ptr(),
            first.len(),
            second.as_mut_ptr(),
            second.len(),
            a_setting,
            b_setting,
            &mut same,
            &mut list,
            &mut place,
            &mut needed,
        )
    };
    Comparison { number, same, list, place, needed }
}
