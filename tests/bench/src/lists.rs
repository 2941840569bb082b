//! The lists that are timed.

use independent_reader::reader::{NULL, STREAM_LIMIT};
use independent_reader::stream::{Member, Stream};

const INT32: u8 = 8;

/// The type byte of a member that is any object.
const OBJECT: u8 = 2;

/// The number of the first object in an array that is object 1.
const FIRST_OBJECT: i32 = 2;

/// An object array whose slots each hold a typed Int32: a row each, and no
/// object among them.
pub fn values(count: usize) -> Vec<u8> {
    let start = Stream::new().objects(1, count as i32);
    let fill = |stream: Stream, n: usize| stream.typed(INT32, &(n as i32).to_le_bytes());
    (0..count).fold(start, fill).end().0
}

/// An object array of single nulls, a row each.
pub fn nulls(count: usize) -> Vec<u8> {
    Stream::new().objects(1, count as i32).bytes(&vec![NULL; count]).end().0
}

/// An object array whose objects are all of one class with five Int32. Every
/// object's number and its class are looked up.
pub fn members(count: usize) -> Vec<u8> {
    let members = ["part", "hall", "shelf", "count", "price"].map(|name| (name, 0, &[INT32][..]));
    let start = Stream::new().library(1, "Parts").objects(1, count as i32);
    let fill = |stream: Stream, n: usize| {
        let object = match n {
            0 => stream.class(FIRST_OBJECT, "Part", &members, 1),
            _ => stream.by_id(FIRST_OBJECT + n as i32, FIRST_OBJECT),
        };
        (0..5).fold(object, |object, member| object.int(n as i32 * 5 + member))
    };
    (0..count).fold(start, fill).end().0
}

/// A string array full of part numbers.
pub fn texts(count: usize) -> Vec<u8> {
    strings(count, part)
}

/// A part number of 38 bytes.
pub fn part(n: usize) -> String {
    format!("gripper jaw {n:06}, hall 7, shelf {:04}", n % 9973)
}

/// A string array. Every string is an object whose number is looked up.
pub fn strings(count: usize, text: impl Fn(usize) -> String) -> Vec<u8> {
    let start = Stream::new().strings(1, count as i32);
    let fill = |stream: Stream, n: usize| stream.string(FIRST_OBJECT + n as i32, &text(n));
    (0..count).fold(start, fill).end().0
}

/// An object whose members have the texts for names, and no values. Nothing is
/// looked up but its own number.
pub fn names(count: usize, text: impl Fn(usize) -> String) -> Vec<u8> {
    let names: Vec<String> = (0..count).map(text).collect();
    let members: Vec<Member> = names.iter().map(|name| (&name[..], OBJECT, &[][..])).collect();
    Stream::new().system(1, "Part", &members).long_nulls(count as i32).end().0
}

/// A string array whose first half holds short part numbers and whose second
/// half refers to them, a row each.
pub fn references(count: usize) -> Vec<u8> {
    let half = count / 2;
    let start = Stream::new().strings(1, count as i32);
    let fill = |stream: Stream, n: usize| match n < half {
        true => stream.string(FIRST_OBJECT + n as i32, &format!("{n:06}")),
        false => stream.reference(FIRST_OBJECT + (n - half) as i32 % half as i32),
    };
    (0..count).fold(start, fill).end().0
}

/// One array of Int32, as large as a stream may be.
pub fn numbers() -> Vec<u8> {
    let count = (STREAM_LIMIT - 28) / 4;
    let items: Vec<u8> = (0..count as i32).flat_map(|n| n.to_le_bytes()).collect();
    Stream::new().primitives(1, count as i32, INT32, &items).end().0
}
