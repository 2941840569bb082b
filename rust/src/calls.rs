//! The calls into the proved jobs, and all the unsafe code there is. Each hands over the pointers and lengths of live slices: none is null,
//! and what is written overlaps nothing else that is lent, since it is borrowed mutably. The jobs ask nothing more, and keep nothing.
#![allow(unsafe_code)]

use crate::Setting;

extern "C" {
    fn strelinga_read(
        stream: *const u8,
        bytes: usize,
        book: *const u8,
        book_bytes: usize,
        table: *mut u32,
        words: usize,
        setting: u32,
        place: &mut u64,
        rows: &mut u64,
    ) -> u32;

    fn strelinga_row_question(
        stream: *const u8,
        bytes: usize,
        table: *const u32,
        words: usize,
        row: u64,
        setting: u32,
    ) -> u32;

    fn strelinga_text_view(
        stream: *const u8,
        bytes: usize,
        table: *const u32,
        words: usize,
        row: u64,
        setting: u32,
        from: &mut u64,
        length: &mut u64,
    ) -> u32;

    fn strelinga_tidy(
        stream: *const u8,
        bytes: usize,
        book: *const u8,
        book_bytes: usize,
        table: *mut u32,
        words: usize,
        out: *mut u8,
        room: usize,
        setting: u32,
        place: &mut u64,
        length: &mut u64,
    ) -> u32;

    fn strelinga_say_the_same(
        a: *const u8,
        a_bytes: usize,
        a_book: *const u8,
        a_book_bytes: usize,
        b: *const u8,
        b_bytes: usize,
        b_book: *const u8,
        b_book_bytes: usize,
        table: *mut u32,
        words: usize,
        first: *mut u8,
        first_room: usize,
        second: *mut u8,
        second_room: usize,
        a_setting: u32,
        b_setting: u32,
        same: &mut u64,
        list: &mut u64,
        place: &mut u64,
        needed: &mut u64,
    ) -> u32;
}

/// A reply: 0 or the number of the refusal, its place, and the value: how many rows, how long the copy is or would be.
pub(crate) struct Reply {
    pub number: u32,
    pub place: u64,
    pub value: u64,
}

/// The reply of a comparing, whether the lists say the same, and the list that was refused (1 or 2, else 0).
pub(crate) struct Comparison {
    pub reply: Reply,
    pub same: u64,
    pub list: u64,
}

pub(crate) fn read(stream: &[u8], book: &[u8], table: &mut [u32], setting: Setting) -> Reply {
    let (mut place, mut value) = (0, 0);
    let number = unsafe {
        strelinga_read(
            stream.as_ptr(),
            stream.len(),
            book.as_ptr(),
            book.len(),
            table.as_mut_ptr(),
            table.len(),
            setting.number(),
            &mut place,
            &mut value,
        )
    };
    Reply { number, place, value }
}

pub(crate) fn row_question(stream: &[u8], table: &[u32], row: u64, setting: Setting) -> u32 {
    unsafe {
        strelinga_row_question(
            stream.as_ptr(),
            stream.len(),
            table.as_ptr(),
            table.len(),
            row,
            setting.number(),
        )
    }
}

/// The number, and where the text stands: its place and how many bytes it has.
pub(crate) fn text_view(
    stream: &[u8],
    table: &[u32],
    row: u64,
    setting: Setting,
) -> (u32, u64, u64) {
    let (mut from, mut length) = (0, 0);
    let number = unsafe {
        strelinga_text_view(
            stream.as_ptr(),
            stream.len(),
            table.as_ptr(),
            table.len(),
            row,
            setting.number(),
            &mut from,
            &mut length,
        )
    };
    (number, from, length)
}

pub(crate) fn tidy(
    stream: &[u8],
    book: &[u8],
    table: &mut [u32],
    out: &mut [u8],
    setting: Setting,
) -> Reply {
    let (mut place, mut value) = (0, 0);
    let number = unsafe {
        strelinga_tidy(
            stream.as_ptr(),
            stream.len(),
            book.as_ptr(),
            book.len(),
            table.as_mut_ptr(),
            table.len(),
            out.as_mut_ptr(),
            out.len(),
            setting.number(),
            &mut place,
            &mut value,
        )
    };
    Reply { number, place, value }
}

pub(crate) fn say_the_same(
    [a, a_book]: [&[u8]; 2],
    [b, b_book]: [&[u8]; 2],
    table: &mut [u32],
    first: &mut [u8],
    second: &mut [u8],
    [a_setting, b_setting]: [Setting; 2],
) -> Comparison {
    let (mut same, mut list, mut place, mut value) = (0, 0, 0, 0);
    let number = unsafe {
        strelinga_say_the_same(
            a.as_ptr(),
            a.len(),
            a_book.as_ptr(),
            a_book.len(),
            b.as_ptr(),
            b.len(),
            b_book.as_ptr(),
            b_book.len(),
            table.as_mut_ptr(),
            table.len(),
            first.as_mut_ptr(),
            first.len(),
            second.as_mut_ptr(),
            second.len(),
            a_setting.number(),
            b_setting.number(),
            &mut same,
            &mut list,
            &mut place,
            &mut value,
        )
    };
    Comparison { reply: Reply { number, place, value }, same, list }
}
