//! The class book, its entries found by hash.

use super::cursor::{Cursor, Field};
use super::found::prefix;
use super::slots::{self, Slot};
use crate::reader::{Refusal, Reply, Setting};
use std::collections::HashMap;

/// What a book says of the members of a class: what each slot takes, and the
/// type bytes and then the infos as a record of kind 4 or 5 has them.
#[derive(Default)]
pub struct Entry {
    pub slots: Vec<Slot>,
    pub spelled: Vec<u8>,
}

/// By first byte, class name, library name, and member count with the names, all
/// with their prefixes.
#[derive(Default)]
pub struct Book(HashMap<Vec<u8>, Entry>);

impl Book {
    pub fn judged(bytes: &[u8]) -> Result<Book, Refusal> {
        let mut cursor = Cursor::new(bytes, Setting::Strict);
        let mut book = Book::default();
        while !cursor.is_at_end() {
            let place = cursor.place();
            match entry(&mut cursor) {
                Ok((key, entry)) if cursor.place() <= u32::MAX as usize => {
                    book.0.entry(key).or_insert(entry);
                }
                _ => return Err(Refusal::at(Reply::BadBook, place)),
            }
        }
        Ok(book)
    }

    pub fn entry(&self, name: &[u8], library: Option<&[u8]>, members: &[&[u8]]) -> Option<&Entry> {
        let count = u8::try_from(members.len()).ok()?;
        self.0.get(&key(name, library, count, members))
    }
}

fn key(name: &[u8], library: Option<&[u8]>, count: u8, members: &[&[u8]]) -> Vec<u8> {
    let mut key = vec![u8::from(library.is_some())];
    let mut put = |text: &[u8]| {
        key.extend(prefix(text.len()));
        key.extend_from_slice(text);
    };
    put(name);
    library.into_iter().for_each(&mut put);
    members.iter().copied().for_each(put);
    key.push(count);
    key
}

fn entry(cursor: &mut Cursor) -> Field<(Vec<u8>, Entry)> {
    let has_library = match cursor.byte()? {
        first @ 0..=1 => first == 1,
        _ => return Err(Reply::BadType),
    };
    let name = cursor.text()?;
    let library = if has_library { Some(cursor.text()?) } else { None };
    let count = cursor.byte()?;
    let (mut names, mut entry, mut infos) = (Vec::new(), Entry::default(), Vec::new());
    for _ in 0..count {
        names.push(cursor.text()?);
        let type_byte = cursor.byte()?;
        entry.spelled.push(type_byte);
        let code = if matches!(type_byte, 0 | 7) { cursor.primitive_code()? } else { 0 };
        entry.slots.push(match type_byte {
            0 => Slot::Value(code),
            1 => slots::STRING,
            2 => slots::OBJECT,
            5..=7 => slots::ARRAY,
            _ => return Err(Reply::BadType),
        });
        infos.extend((code > 0).then_some(code));
    }
    entry.spelled.extend(infos);
    Ok((key(name, library, count, &names), entry))
}
