//! Writes the tidy copy.

use crate::reader::{self, Array, Class, Detail, Items, Reading, Record, Refusal, SlotType, Terms};
use std::collections::HashMap;

#[derive(Clone, Copy)]
struct ObjectNumber(u32);

#[derive(Clone, Copy)]
struct LibraryNumber(u32);

/// A null run not yet written, as more of it may follow.
struct Nulls {
    owner: u32,
    count: u32,
}

struct Writer<'r, 'a> {
    reading: &'r Reading<'a>,
    /// By row; rows that are no objects have number 0.
    numbers: Vec<ObjectNumber>,
    libraries: HashMap<&'a [u8], LibraryNumber>,
    /// By class record: which class record is the first equal one. Found once,
    /// as comparing whole classes for every object could take for ever.
    first_equal: Vec<usize>,
    /// By class record: the object that is written with the whole class.
    firsts: Vec<Option<ObjectNumber>>,
    nulls: Option<Nulls>,
    copy: Vec<u8>,
}

/// Writes the tidy copy and answers its length; the table gets the reading of
/// the stream.
pub fn tidy<'b>(
    stream: &[u8],
    table: &mut [u32],
    out: &mut [u8],
    terms: impl Into<Terms<'b>>,
) -> Result<usize, Refusal> {
    table.fill(0);
    let reading = reader::read_records(stream, table.len() / reader::ROW_WORDS, terms)?;
    let copy = copy_of(&reading);
    if copy.len() > out.len() || copy.len() > reader::STREAM_LIMIT {
        return Err(Refusal::out_full(copy.len()));
    }
    out[..copy.len()].copy_from_slice(&copy);
    reader::fill(table, &reading);
    Ok(copy.len())
}

/// The whole tidy copy, whatever its length.
pub fn copy_of(reading: &Reading) -> Vec<u8> {
    let mut writer = Writer {
        reading,
        numbers: numbers(reading),
        libraries: HashMap::new(),
        first_equal: first_equal(&reading.classes),
        firsts: vec![None; reading.classes.len()],
        nulls: None,
        copy: Vec::new(),
    };
    for (row, record) in reading.records.iter().enumerate() {
        writer.record(row, record);
    }
    writer.copy
}

fn numbers(reading: &Reading) -> Vec<ObjectNumber> {
    let mut last = 0;
    let number = |record: &Record| {
        if !record.row.is_object() {
            return ObjectNumber(0);
        }
        last += 1;
        ObjectNumber(last)
    };
    reading.records.iter().map(number).collect()
}

fn first_equal(classes: &[Class]) -> Vec<usize> {
    let mut firsts = HashMap::new();
    let first = |(record, class)| *firsts.entry(class).or_insert(record);
    classes.iter().enumerate().map(first).collect()
}

impl<'a> Writer<'_, 'a> {
    fn record(&mut self, row: usize, record: &Record<'a>) {
        if record.row.kind == reader::LIBRARY {
            return;
        }
        if record.row.is_null_run() {
            return self.hold_nulls(record.row.owner, record.row.count);
        }
        self.write_nulls();
        let number = self.numbers[row];
        match (record.row.kind, &record.detail) {
            (reader::HEADER, _) => self.header(self.linked(record)),
            (reader::REFERENCE, _) => self.reference(self.linked(record)),
            (reader::END, _) => self.byte(reader::END),
            (_, Detail::Class(class)) => self.object(number, *class),
            (_, Detail::Text(text)) => self.string(number, text),
            (kind, Detail::Array(array)) => self.array(kind, number, array),
            (reader::TYPED_PRIMITIVE, Detail::Value(code, value)) => {
                self.byte(reader::TYPED_PRIMITIVE);
                self.byte(*code);
                self.value(*code, value);
            }
            (_, Detail::Value(code, value)) => self.value(*code, value),
            (kind, _) => unreachable!("no record of kind {kind} is without detail"),
        }
    }

    fn linked(&self, record: &Record) -> ObjectNumber {
        self.numbers[record.row.link as usize - 1]
    }

    /// Runs of one owner with nothing written between them lie side by side;
    /// runs of 0 add nothing.
    fn hold_nulls(&mut self, owner: u32, count: u32) {
        match &mut self.nulls {
            Some(nulls) if nulls.owner == owner => nulls.count += count,
            _ => {
                self.write_nulls();
                self.nulls = Some(Nulls { owner, count });
            }
        }
    }

    fn write_nulls(&mut self) {
        match self.nulls.take().map_or(0, |nulls| nulls.count) {
            0 => {}
            1 => self.byte(reader::NULL),
            count @ 2..=255 => self.bytes(&[reader::SHORT_RUN, count as u8]),
            count => {
                self.byte(reader::LONG_RUN);
                self.int32(count);
            }
        }
    }

    fn header(&mut self, root: ObjectNumber) {
        self.byte(reader::HEADER);
        self.object_number(root);
        self.object_number(root);
        self.int32(1);
        self.int32(0);
    }

    fn reference(&mut self, target: ObjectNumber) {
        self.byte(reader::REFERENCE);
        self.object_number(target);
    }

    fn object(&mut self, number: ObjectNumber, class_record: usize) {
        let class = self.first_equal[class_record];
        match self.firsts[class] {
            Some(first) => {
                self.byte(reader::CLASS_BY_ID);
                self.object_number(number);
                self.object_number(first);
            }
            None => {
                self.firsts[class] = Some(number);
                let reading = self.reading;
                self.first_object(number, &reading.classes[class]);
            }
        }
    }

    fn first_object(&mut self, number: ObjectNumber, class: &Class<'a>) {
        for (_, slot_type) in &class.members {
            self.need_of(slot_type);
        }
        if let Some(library) = class.library {
            self.need(library);
        }
        let system = class.library.is_none();
        self.byte(if system { reader::SYSTEM_CLASS } else { reader::CLASS });
        self.object_number(number);
        self.text(class.name);
        self.members(class);
        if let Some(library) = class.library {
            self.library_number(library);
        }
    }

    fn members(&mut self, class: &Class<'a>) {
        self.int32(class.members.len() as u32);
        for (name, _) in &class.members {
            self.text(name);
        }
        for (_, slot_type) in &class.members {
            self.byte(type_byte(slot_type));
        }
        for (_, slot_type) in &class.members {
            self.type_info(slot_type);
        }
    }

    fn type_info(&mut self, slot_type: &SlotType<'a>) {
        match slot_type {
            SlotType::Primitive(code) | SlotType::PrimitiveArray(code) => self.byte(*code),
            SlotType::SystemClass(name) => self.text(name),
            SlotType::Class(name, library) => {
                self.text(name);
                self.library_number(library);
            }
            _ => {}
        }
    }

    fn need_of(&mut self, slot_type: &SlotType<'a>) {
        if let SlotType::Class(_, library) = slot_type {
            self.need(library);
        }
    }

    /// Writes the library record unless an equal name has one already.
    fn need(&mut self, name: &'a [u8]) {
        if self.libraries.contains_key(name) {
            return;
        }
        let number = LibraryNumber(self.libraries.len() as u32 + 1);
        self.libraries.insert(name, number);
        self.byte(reader::LIBRARY);
        self.int32(number.0);
        self.text(name);
    }

    fn string(&mut self, number: ObjectNumber, text: &[u8]) {
        self.byte(reader::STRING);
        self.object_number(number);
        self.text(text);
    }

    fn array(&mut self, kind: u8, number: ObjectNumber, array: &Array<'a>) {
        self.need_of(&array.item);
        self.byte(kind);
        self.object_number(number);
        if let Some(array_type) = array.array_type {
            self.byte(array_type);
            self.int32(array.lengths.len() as u32);
        }
        for &length in &array.lengths {
            self.int32(length as u32);
        }
        self.item_type(kind, &array.item);
        match &array.items {
            Items::Bytes(bytes) => self.bytes(bytes),
            Items::Decimals(decimals) => decimals.iter().for_each(|decimal| self.text(decimal)),
        }
    }

    /// A Decimal gets the shortest prefix, whichever it had.
    fn value(&mut self, code: u8, value: &[u8]) {
        match code {
            reader::DECIMAL => self.text(value),
            _ => self.bytes(value),
        }
    }

    /// Kind 7 spells its item type, kind 15 its code, the others nothing.
    fn item_type(&mut self, kind: u8, item: &SlotType<'a>) {
        if kind == reader::BINARY_ARRAY {
            self.byte(type_byte(item));
        }
        self.type_info(item);
    }

    fn byte(&mut self, byte: u8) {
        self.copy.push(byte);
    }

    fn bytes(&mut self, bytes: &[u8]) {
        self.copy.extend_from_slice(bytes);
    }

    fn int32(&mut self, number: u32) {
        self.bytes(&number.to_le_bytes());
    }

    fn object_number(&mut self, number: ObjectNumber) {
        self.int32(number.0);
    }

    fn library_number(&mut self, name: &[u8]) {
        let number = self.libraries[name];
        self.int32(number.0);
    }

    fn text(&mut self, text: &[u8]) {
        write_prefix(&mut self.copy, text.len());
        self.bytes(text);
    }
}

pub(crate) fn write_prefix(out: &mut Vec<u8>, length: usize) {
    let mut rest = length;
    while rest > 0x7F {
        out.push((rest & 0x7F) as u8 | 0x80);
        rest >>= 7;
    }
    out.push(rest as u8);
}

fn type_byte(slot_type: &SlotType) -> u8 {
    match slot_type {
        SlotType::Primitive(_) => 0,
        SlotType::String => 1,
        SlotType::Object => 2,
        SlotType::SystemClass(_) => 3,
        SlotType::Class(..) => 4,
        SlotType::ObjectArray => 5,
        SlotType::StringArray => 6,
        SlotType::PrimitiveArray(_) => 7,
    }
}
