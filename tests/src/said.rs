//! What an accepted stream says, whatever its packing, so that it can be packed
//! anew.

use crate::generate::{Array, Class, Filling, List, Object, Type};
use crate::reader::{self, Detail, Items, Reading, Record, SlotType};
use std::str::from_utf8;

struct Teller<'r, 'a> {
    reading: &'r Reading<'a>,
    /// Rows in the order of records, by the owner word.
    rows_of: Vec<Vec<usize>>,
    /// Place of each row's object in object order, counted from 0.
    order: Vec<usize>,
}

pub fn list<'a>(reading: &Reading<'a>) -> List<'a> {
    let mut teller =
        Teller { reading, rows_of: vec![Vec::new(); reading.records.len() + 1], order: Vec::new() };
    let mut objects = 0;
    for (row, record) in reading.records.iter().enumerate() {
        teller.rows_of[record.row.owner as usize].push(row);
        teller.order.push(objects);
        objects += usize::from(record.row.is_object());
    }
    let records = &reading.records;
    let top = teller.rows_of[0].iter().filter(|&&row| records[row].row.is_object());
    let objects = top.map(|&row| teller.object(row)).collect();
    List { objects, root: teller.target(&records[0]) }
}

impl<'a> Teller<'_, 'a> {
    fn target(&self, record: &Record) -> usize {
        self.order[record.row.link as usize - 1]
    }

    fn object(&self, row: usize) -> Object<'a> {
        let record = &self.reading.records[row];
        match &record.detail {
            Detail::Text(text) => Object::String(name(text)),
            Detail::Class(class) => {
                Object::OfClass(self::class(&self.reading.classes[*class]), self.fillings(row))
            }
            Detail::Array(array) => {
                let mut fillings = self.fillings(row);
                fillings.extend(of_items(array));
                Object::Array(Array {
                    kind: record.row.kind,
                    array_type: array.array_type.unwrap_or(0),
                    lengths: array.lengths.clone(),
                    item: of_type(&array.item),
                    fillings,
                })
            }
            _ => unreachable!("row {row} is no object"),
        }
    }

    fn fillings(&self, row: usize) -> Vec<Filling<'a>> {
        self.rows_of[row + 1].iter().flat_map(|&row| self.filling(row)).collect()
    }

    fn filling(&self, row: usize) -> Vec<Filling<'a>> {
        let record = &self.reading.records[row];
        match (record.row.kind, &record.detail) {
            (reader::LIBRARY, _) => Vec::new(),
            (reader::REFERENCE, _) => vec![Filling::Reference(self.target(record))],
            (reader::MEMBER_VALUE, Detail::Value(code, value)) => {
                vec![Filling::Value(*code, value.to_vec())]
            }
            (_, Detail::Value(code, value)) => vec![Filling::Typed(*code, value.to_vec())],
            _ if record.row.is_null_run() => vec![Filling::Null; record.row.count as usize],
            _ => vec![Filling::Object(self.object(row))],
        }
    }
}

/// Decimals one by one; other items of a code at once.
fn of_items<'a>(array: &reader::Array) -> Vec<Filling<'a>> {
    let SlotType::Primitive(code) = array.item else {
        return Vec::new();
    };
    let value = |bytes: &[u8]| Filling::Value(code, bytes.to_vec());
    match &array.items {
        Items::Bytes([]) => Vec::new(),
        Items::Bytes(bytes) => vec![value(bytes)],
        Items::Decimals(decimals) => decimals.iter().map(|decimal| value(decimal)).collect(),
    }
}

/// The reader has judged it.
fn name(text: &[u8]) -> &str {
    from_utf8(text).expect("text is UTF-8")
}

/// The class as a packed list has it.
pub fn class<'a>(class: &reader::Class<'a>) -> Class<'a> {
    let members = class.members.iter();
    Class {
        name: name(class.name),
        library: class.library.map(name),
        members: members.map(|(member, slot)| (name(member), of_type(slot))).collect(),
    }
}

fn of_type<'a>(slot_type: &SlotType<'a>) -> Type<'a> {
    match slot_type {
        SlotType::Primitive(code) => Type::Primitive(*code),
        SlotType::String => Type::String,
        SlotType::Object => Type::Object,
        SlotType::SystemClass(class) => Type::SystemClass(name(class)),
        SlotType::Class(class, library) => Type::Class(name(class), name(library)),
        SlotType::ObjectArray => Type::ObjectArray,
        SlotType::StringArray => Type::StringArray,
        SlotType::PrimitiveArray(code) => Type::PrimitiveArray(*code),
    }
}
