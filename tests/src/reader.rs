//! Reads a stream into a table of rows.

use crate::book::Book;
use std::collections::HashMap;
use std::ops::Range;

pub const STREAM_LIMIT: usize = 16_777_216;
pub const OPEN_LIMIT: usize = 64;
pub const SLOT_LIMIT: u64 = 2_147_483_647;
pub const ROW_WORDS: usize = 8;

/// Whether kinds 2 and 3 are taken. Where not they give 4, and a class book is
/// judged all the same.
pub const UNTYPED_TAKEN: bool = false;

pub const HEADER: u8 = 0;
pub const CLASS_BY_ID: u8 = 1;
pub const UNTYPED_SYSTEM_CLASS: u8 = 2;
pub const UNTYPED_CLASS: u8 = 3;
pub const SYSTEM_CLASS: u8 = 4;
pub const CLASS: u8 = 5;
pub const STRING: u8 = 6;
pub const BINARY_ARRAY: u8 = 7;
pub const TYPED_PRIMITIVE: u8 = 8;
pub const REFERENCE: u8 = 9;
pub const NULL: u8 = 10;
pub const END: u8 = 11;
pub const LIBRARY: u8 = 12;
pub const SHORT_RUN: u8 = 13;
pub const LONG_RUN: u8 = 14;
pub const PRIMITIVE_ARRAY: u8 = 15;
pub const OBJECT_ARRAY: u8 = 16;
pub const STRING_ARRAY: u8 = 17;
pub const MEMBER_VALUE: u8 = 32;

/// The code of the one value that has a prefix.
pub const DECIMAL: u8 = 5;

const DECIMAL_TOP: &[u8] = b"79228162514264337593543950335";
/// The ticks of a DateTime end with 9999-12-31 23:59:59.9999999.
pub const LAST_TICK: u64 = 3_155_378_975_999_999_999;

/// Which length prefixes are taken.
#[derive(Clone, Copy, PartialEq, Eq, Hash, Debug)]
pub enum Setting {
    /// The shortest alone.
    Strict,
    /// Any of at most five bytes whose fifth is at most 7.
    Lenient,
}

impl Setting {
    pub const BOTH: [Setting; 2] = [Setting::Strict, Setting::Lenient];

    pub fn is_lenient(self) -> bool {
        self == Setting::Lenient
    }

    /// With this class book.
    pub fn with(self, book: &[u8]) -> Terms<'_> {
        Terms { setting: self, book }
    }
}

/// What a reading is given besides the stream and the table. A setting alone
/// stands for itself with a book that has no entries.
#[derive(Clone, Copy, PartialEq, Eq, Debug)]
pub struct Terms<'b> {
    pub setting: Setting,
    /// The class book, which is strict under either setting.
    pub book: &'b [u8],
}

impl From<Setting> for Terms<'_> {
    fn from(setting: Setting) -> Self {
        setting.with(&[])
    }
}

#[derive(Clone, Copy, PartialEq, Eq, Debug)]
pub enum Reply {
    TooLarge = 1,
    CutShort = 2,
    UnknownKind = 3,
    NotTaken = 4,
    WrongPlace = 5,
    BadVersion = 6,
    BadLength = 7,
    BadText = 8,
    BadCount = 9,
    BadType = 10,
    BadValue = 11,
    BadId = 12,
    NoLibrary = 13,
    NoClass = 14,
    TooDeep = 15,
    NoRoom = 16,
    Trailing = 17,
    NoRoot = 18,
    NoObject = 19,
    OutFull = 20,
    NoSuchRow = 21,
    BadBook = 22,
    NotInBook = 23,
}

/// `needed` is the needed length of reply 20 and 0 with all others.
#[derive(Clone, Copy, PartialEq, Eq, Debug)]
pub struct Refusal {
    pub number: u32,
    pub place: usize,
    pub needed: usize,
}

impl Refusal {
    pub fn at(reply: Reply, place: usize) -> Refusal {
        Refusal { number: reply as u32, place, needed: 0 }
    }

    pub fn out_full(needed: usize) -> Refusal {
        Refusal { number: Reply::OutFull as u32, place: 0, needed }
    }
}

/// What a field gives; its place is that of the record around it.
pub(crate) type Field<T> = Result<T, Reply>;

/// The type of a member or item with its own detail. A library stands by name,
/// because only the name is ever compared.
#[derive(Clone, PartialEq, Eq, Hash, Debug)]
pub enum SlotType<'a> {
    Primitive(u8),
    String,
    Object,
    SystemClass(&'a [u8]),
    Class(&'a [u8], &'a [u8]),
    ObjectArray,
    StringArray,
    PrimitiveArray(u8),
}

/// `library` is `None` for a system class, which differs from a class of a
/// library with an empty name.
#[derive(Clone, PartialEq, Eq, Hash, Debug)]
pub struct Class<'a> {
    pub name: &'a [u8],
    pub library: Option<&'a [u8]>,
    pub members: Vec<(&'a [u8], SlotType<'a>)>,
}

/// `array_type` and `lengths` as written; kinds 15 to 17 have one length and
/// no array type.
#[derive(Clone, PartialEq, Eq, Debug)]
pub struct Array<'a> {
    pub array_type: Option<u8>,
    pub lengths: Vec<i32>,
    pub item: SlotType<'a>,
    pub items: Items<'a>,
}

/// Primitive items; slots that stand in rows of their own have no bytes here.
#[derive(Clone, PartialEq, Eq, Debug)]
pub enum Items<'a> {
    Bytes(&'a [u8]),
    /// Each without its prefix.
    Decimals(Vec<&'a [u8]>),
}

#[derive(Clone, PartialEq, Eq, Debug)]
pub enum Detail<'a> {
    /// Header, reference, nulls, end: their row says everything.
    None,
    /// Index into [`Reading::classes`].
    Class(usize),
    Text(&'a [u8]),
    Array(Box<Array<'a>>),
    /// Code and bytes, a Decimal without its prefix.
    Value(u8, &'a [u8]),
    Library(&'a [u8]),
}

#[derive(Clone, Copy, Default, PartialEq, Eq, Debug)]
pub struct Row {
    pub kind: u8,
    pub offset: u32,
    pub end: u32,
    pub id: u32,
    pub owner: u32,
    pub slot: u32,
    pub link: u32,
    pub count: u32,
}

impl Row {
    pub fn words(&self) -> [u32; ROW_WORDS] {
        let kind = u32::from(self.kind);
        [kind, self.offset, self.end, self.id, self.owner, self.slot, self.link, self.count]
    }

    pub fn is_object(&self) -> bool {
        matches!(
            self.kind,
            CLASS_BY_ID
                | UNTYPED_SYSTEM_CLASS
                | UNTYPED_CLASS
                | SYSTEM_CLASS
                | CLASS
                | STRING
                | BINARY_ARRAY
                | PRIMITIVE_ARRAY
                | OBJECT_ARRAY
                | STRING_ARRAY
        )
    }

    pub fn is_null_run(&self) -> bool {
        matches!(self.kind, NULL | SHORT_RUN | LONG_RUN)
    }
}

#[derive(Clone, Debug)]
pub struct Record<'a> {
    pub row: Row,
    pub detail: Detail<'a>,
}

/// All that an accepted stream holds, one record for each row.
#[derive(Debug)]
pub struct Reading<'a> {
    pub records: Vec<Record<'a>>,
    pub classes: Vec<Class<'a>>,
}

/// Where a length prefix stands, and the number that it is.
#[derive(Clone, Debug, PartialEq, Eq)]
pub struct Prefix {
    pub place: Range<usize>,
    pub number: usize,
}

pub(crate) struct Cursor<'a> {
    stream: &'a [u8],
    pub(crate) at: usize,
    setting: Setting,
    /// Those that were passed.
    prefixes: Vec<Prefix>,
}

impl<'a> Cursor<'a> {
    pub(crate) fn new(stream: &'a [u8], at: usize, setting: Setting) -> Cursor<'a> {
        Cursor { stream, at, setting, prefixes: Vec::new() }
    }

    fn bytes(&mut self, count: usize) -> Field<&'a [u8]> {
        let rest = &self.stream[self.at..];
        let taken = rest.get(..count).ok_or(Reply::CutShort)?;
        self.at += count;
        Ok(taken)
    }

    pub(crate) fn byte(&mut self) -> Field<u8> {
        Ok(self.bytes(1)?[0])
    }

    fn int32(&mut self) -> Field<i32> {
        let b = self.bytes(4)?;
        Ok(i32::from_le_bytes([b[0], b[1], b[2], b[3]]))
    }

    /// A count or length: negative ones are refused.
    fn count(&mut self) -> Field<u32> {
        u32::try_from(self.int32()?).map_err(|_| Reply::BadCount)
    }

    fn positive_id(&mut self) -> Field<i32> {
        let id = self.int32()?;
        if id > 0 {
            Ok(id)
        } else {
            Err(Reply::BadId)
        }
    }

    /// A right one is kept with its place.
    fn prefix(&mut self) -> Field<usize> {
        let start = self.at;
        let number = match self.setting {
            Setting::Strict => self.shortest_prefix()?,
            Setting::Lenient => self.any_prefix()?,
        };
        self.prefixes.push(Prefix { place: start..self.at, number });
        Ok(number)
    }

    fn shortest_prefix(&mut self) -> Field<usize> {
        let mut number = 0usize;
        for group in 0..5 {
            let byte = self.byte()?;
            if group == 4 && byte > 7 {
                return Err(Reply::BadLength);
            }
            number |= usize::from(byte & 0x7F) << (7 * group);
            if byte & 0x80 == 0 {
                let too_long = group > 0 && byte == 0;
                return if too_long { Err(Reply::BadLength) } else { Ok(number) };
            }
        }
        // The fifth byte is at most 7 and so never asks for a sixth.
        Err(Reply::BadLength)
    }

    /// Up to four bytes that ask for another, and one that does not.
    fn any_prefix(&mut self) -> Field<usize> {
        let mut number = 0;
        for group in 0..4 {
            let byte = usize::from(self.byte()?);
            number += byte % 128 << (7 * group);
            if byte < 128 {
                return Ok(number);
            }
        }
        match self.byte()? {
            fifth @ 0..=7 => Ok(number + (usize::from(fifth) << 28)),
            _ => Err(Reply::BadLength),
        }
    }

    fn prefixed(&mut self) -> Field<&'a [u8]> {
        let length = self.prefix()?;
        self.bytes(length)
    }

    pub(crate) fn text(&mut self) -> Field<&'a [u8]> {
        let text = self.prefixed()?;
        if std::str::from_utf8(text).is_ok() {
            Ok(text)
        } else {
            Err(Reply::BadText)
        }
    }

    pub(crate) fn primitive_code(&mut self) -> Field<u8> {
        match self.byte()? {
            code @ (1..=3 | 5..=16) => Ok(code),
            _ => Err(Reply::BadType),
        }
    }

    fn type_byte(&mut self) -> Field<u8> {
        match self.byte()? {
            byte @ 0..=7 => Ok(byte),
            _ => Err(Reply::BadType),
        }
    }

    fn version_part(&mut self, wanted: i32) -> Field<()> {
        if self.int32()? == wanted {
            Ok(())
        } else {
            Err(Reply::BadVersion)
        }
    }

    /// The bytes of one value, a Decimal without its prefix.
    fn value(&mut self, code: u8) -> Field<&'a [u8]> {
        let start = self.at;
        match code {
            1 => judge(self.byte()? <= 1)?,
            3 => self.char()?,
            DECIMAL => return self.decimal(),
            13 => judge(is_date_time(self.bytes(8)?))?,
            2 | 10 => drop(self.bytes(1)?),
            7 | 14 => drop(self.bytes(2)?),
            8 | 11 | 15 => drop(self.bytes(4)?),
            _ => drop(self.bytes(8)?),
        }
        Ok(&self.stream[start..self.at])
    }

    fn decimal(&mut self) -> Field<&'a [u8]> {
        let text = self.prefixed()?;
        judge(is_decimal(text))?;
        Ok(text)
    }

    fn char(&mut self) -> Field<()> {
        let start = self.at;
        let more = match self.byte()? {
            0x00..=0x7F => 0,
            0xC2..=0xDF => 1,
            0xE0..=0xEF => 2,
            0xF0..=0xF4 => 3,
            _ => return Err(Reply::BadValue),
        };
        self.bytes(more)?;
        judge(std::str::from_utf8(&self.stream[start..self.at]).is_ok())
    }

    fn items(&mut self, code: u8, count: u32) -> Field<Items<'a>> {
        if code == DECIMAL {
            let decimals: Field<Vec<&[u8]>> = (0..count).map(|_| self.decimal()).collect();
            return decimals.map(Items::Decimals);
        }
        let start = self.at;
        for _ in 0..count {
            self.value(code)?;
        }
        Ok(Items::Bytes(&self.stream[start..self.at]))
    }
}

fn judge(good: bool) -> Field<()> {
    if good {
        Ok(())
    } else {
        Err(Reply::BadValue)
    }
}

/// Two bits of kind, then 62 bits of ticks without a sign.
fn is_date_time(bytes: &[u8]) -> bool {
    let bits = bytes.iter().rev().fold(0, |bits, &byte| bits << 8 | u64::from(byte));
    let kind = bits >> 62;
    let ticks = bits << 2 >> 2;
    kind < 3 && ticks <= LAST_TICK
}

fn is_decimal(text: &[u8]) -> bool {
    let unsigned = text.strip_prefix(b"-").unwrap_or(text);
    let mut parts = unsigned.splitn(2, |&b| b == b'.');
    let whole = parts.next().unwrap_or(b"");
    let fraction = parts.next();
    is_digits(whole) && fraction.is_none_or(is_digits) && in_range(whole, fraction.unwrap_or(b""))
}

fn is_digits(text: &[u8]) -> bool {
    !text.is_empty() && text.iter().all(u8::is_ascii_digit)
}

fn in_range(whole: &[u8], fraction: &[u8]) -> bool {
    let zeros = whole.iter().take_while(|&&b| b == b'0').count();
    let whole = &whole[zeros..];
    // Without leading zeros the longer number is the larger, and numbers of
    // one length are ordered as their digits are.
    match (whole.len(), whole).cmp(&(DECIMAL_TOP.len(), DECIMAL_TOP)) {
        std::cmp::Ordering::Less => true,
        std::cmp::Ordering::Equal => fraction.iter().all(|&b| b == b'0'),
        std::cmp::Ordering::Greater => false,
    }
}

/// The exact product, `None` where it passes the slot limit.
fn slot_count(lengths: &[i32]) -> Option<u32> {
    if lengths.contains(&0) {
        return Some(0);
    }
    let mut product = 1u64;
    for &length in lengths {
        product *= u64::from(length.unsigned_abs());
        if product > SLOT_LIMIT {
            return None;
        }
    }
    u32::try_from(product).ok()
}

/// What may stand at the next byte.
#[derive(Clone, Copy)]
enum Expected {
    Start,
    TopLevel,
    StringSlot,
    ObjectSlot,
    ArraySlot,
    MemberValue(u8),
}

impl Expected {
    fn of_slot(slot_type: &SlotType) -> Expected {
        match slot_type {
            SlotType::Primitive(code) => Expected::MemberValue(*code),
            SlotType::String => Expected::StringSlot,
            SlotType::Object | SlotType::SystemClass(_) | SlotType::Class(..) => {
                Expected::ObjectSlot
            }
            SlotType::ObjectArray | SlotType::StringArray | SlotType::PrimitiveArray(_) => {
                Expected::ArraySlot
            }
        }
    }

    fn takes(self, kind: u8) -> bool {
        match self {
            Expected::Start => kind == HEADER,
            Expected::TopLevel => matches!(kind, 1..=7 | 11 | 12 | 15..=17),
            Expected::StringSlot => matches!(kind, 6 | 9 | 10 | 12 | 13 | 14),
            Expected::ObjectSlot => matches!(kind, 1..=6 | 8..=10 | 12..=14),
            Expected::ArraySlot => matches!(kind, 9 | 10 | 12 | 13 | 14),
            Expected::MemberValue(_) => false,
        }
    }
}

/// The types of an open object's slots.
enum Slots<'a> {
    Members(usize),
    Items(SlotType<'a>),
}

struct OpenObject<'a> {
    row: usize,
    next: u32,
    count: u32,
    slots: Slots<'a>,
}

/// For each member, how many slots a null run that begins there may fill.
type RunRoom = Vec<u32>;

fn run_room(class: &Class) -> RunRoom {
    let mut room = vec![0; class.members.len()];
    let mut free = 0;
    for (member, (_, slot_type)) in class.members.iter().enumerate().rev() {
        free = if matches!(slot_type, SlotType::Primitive(_)) { 0 } else { free + 1 };
        room[member] = free;
    }
    room
}

/// What the fields of one record give.
struct Found<'a> {
    id: i32,
    link: u32,
    count: u32,
    detail: Detail<'a>,
    opens: Option<Slots<'a>>,
}

impl<'a> Found<'a> {
    fn plain() -> Found<'a> {
        Found { id: 0, link: 0, count: 0, detail: Detail::None, opens: None }
    }

    fn run(count: u32) -> Found<'a> {
        Found { count, ..Found::plain() }
    }
}

struct Reader<'a, 'b> {
    cursor: Cursor<'a>,
    book: Book<'b>,
    rows: usize,
    records: Vec<Record<'a>>,
    classes: Vec<Class<'a>>,
    run_rooms: Vec<RunRoom>,
    /// Row of each object by ObjectId.
    objects: HashMap<i32, usize>,
    /// Name of each library by LibraryId.
    libraries: HashMap<i32, &'a [u8]>,
    open: Vec<OpenObject<'a>>,
}

/// Reads with room for `rows` rows.
pub fn read_records<'a, 'b>(
    stream: &'a [u8],
    rows: usize,
    terms: impl Into<Terms<'b>>,
) -> Result<Reading<'a>, Refusal> {
    if stream.len() > STREAM_LIMIT {
        return Err(Refusal::at(Reply::TooLarge, 0));
    }
    let mut reader = Reader::new(stream, rows, terms.into())?;
    reader.stream()?;
    Ok(Reading { records: reader.records, classes: reader.classes })
}

/// The prefixes that a lenient reading with this book passes, up to a refusal.
pub fn prefixes(stream: &[u8], book: &[u8]) -> Vec<Prefix> {
    let Ok(mut reader) = Reader::new(stream, usize::MAX, Setting::Lenient.with(book)) else {
        return Vec::new();
    };
    // What was passed counts, whatever comes of the reading.
    let _ = reader.stream();
    reader.cursor.prefixes
}

/// Fills the table with the rows of the stream and answers their number.
pub fn read<'b>(
    stream: &[u8],
    table: &mut [u32],
    terms: impl Into<Terms<'b>>,
) -> Result<usize, Refusal> {
    table.fill(0);
    let reading = read_records(stream, table.len() / ROW_WORDS, terms)?;
    fill(table, &reading);
    Ok(reading.records.len())
}

pub(crate) fn fill(table: &mut [u32], reading: &Reading) {
    table.fill(0);
    for (row, record) in table.chunks_exact_mut(ROW_WORDS).zip(&reading.records) {
        row.copy_from_slice(&record.row.words());
    }
}

/// The text of a row, `None` where the row has none. The setting is the
/// question's own, whatever the table was read with.
pub fn row_text<'a>(
    stream: &'a [u8],
    table: &[u32],
    row: usize,
    setting: Setting,
) -> Option<&'a [u8]> {
    let words = table.chunks_exact(ROW_WORDS).nth(row)?;
    if words[0] != u32::from(STRING) {
        return None;
    }
    let (offset, end) = (words[1] as usize, words[2] as usize);
    let mut cursor = Cursor::new(stream, offset, setting);
    if offset >= stream.len() || cursor.byte().ok()? != STRING {
        return None;
    }
    cursor.positive_id().ok()?;
    let text = cursor.text().ok()?;
    (cursor.at == end).then_some(text)
}

/// 0 where the row has a text, 21 otherwise.
pub fn row_answer(stream: &[u8], table: &[u32], row: usize, setting: Setting) -> u32 {
    match row_text(stream, table, row, setting) {
        Some(_) => 0,
        None => Reply::NoSuchRow as u32,
    }
}

impl<'a, 'b> Reader<'a, 'b> {
    /// The book is judged before the stream is read.
    fn new(stream: &'a [u8], rows: usize, terms: Terms<'b>) -> Result<Reader<'a, 'b>, Refusal> {
        Ok(Reader {
            cursor: Cursor::new(stream, 0, terms.setting),
            book: Book::judged(terms.book)?,
            rows,
            records: Vec::new(),
            classes: Vec::new(),
            run_rooms: Vec::new(),
            objects: HashMap::new(),
            libraries: HashMap::new(),
            open: Vec::new(),
        })
    }

    fn stream(&mut self) -> Result<(), Refusal> {
        self.next(Expected::Start)?;
        loop {
            self.close_filled();
            if self.next(self.expected())? == END {
                break;
            }
        }
        self.after_end()
    }

    fn close_filled(&mut self) {
        while self.open.last().is_some_and(|object| object.next == object.count) {
            self.open.pop();
        }
    }

    fn expected(&self) -> Expected {
        match self.open.last() {
            None => Expected::TopLevel,
            Some(object) => Expected::of_slot(self.slot_type(object)),
        }
    }

    fn slot_type<'s>(&'s self, object: &'s OpenObject<'a>) -> &'s SlotType<'a> {
        match &object.slots {
            Slots::Members(class) => &self.classes[*class].members[object.next as usize].1,
            Slots::Items(item) => item,
        }
    }

    /// One record or member value; answers its kind.
    fn next(&mut self, expected: Expected) -> Result<u8, Refusal> {
        let place = self.cursor.at;
        let read = match expected {
            Expected::MemberValue(code) => self.member_value(code, place),
            _ => self.record(expected, place),
        };
        read.map_err(|reply| Refusal::at(reply, place))
    }

    fn member_value(&mut self, code: u8, place: usize) -> Field<u8> {
        let value = self.cursor.value(code)?;
        let found = Found { detail: Detail::Value(code, value), ..Found::plain() };
        self.keep(MEMBER_VALUE, place, found)?;
        Ok(MEMBER_VALUE)
    }

    fn record(&mut self, expected: Expected, place: usize) -> Field<u8> {
        let kind = self.kind(expected)?;
        let found = self.fields(kind)?;
        self.keep(kind, place, found)?;
        Ok(kind)
    }

    fn kind(&mut self, expected: Expected) -> Field<u8> {
        match self.cursor.byte()? {
            18..=20 | 23..=255 => Err(Reply::UnknownKind),
            21 | 22 => Err(Reply::NotTaken),
            UNTYPED_SYSTEM_CLASS | UNTYPED_CLASS if !UNTYPED_TAKEN => Err(Reply::NotTaken),
            kind if expected.takes(kind) => Ok(kind),
            _ => Err(Reply::WrongPlace),
        }
    }

    fn fields(&mut self, kind: u8) -> Field<Found<'a>> {
        match kind {
            HEADER => self.header(),
            CLASS_BY_ID => self.class_by_id(),
            UNTYPED_SYSTEM_CLASS | UNTYPED_CLASS => self.untyped_class(kind),
            SYSTEM_CLASS | CLASS => self.class(kind),
            STRING => self.string(),
            BINARY_ARRAY => self.binary_array(),
            TYPED_PRIMITIVE => self.typed_primitive(),
            REFERENCE => self.reference(),
            NULL => Ok(Found::run(1)),
            SHORT_RUN | LONG_RUN => self.null_run(kind),
            LIBRARY => self.library(),
            PRIMITIVE_ARRAY => self.primitive_array(),
            OBJECT_ARRAY => self.slot_array(SlotType::Object),
            STRING_ARRAY => self.slot_array(SlotType::String),
            _ => Ok(Found::plain()),
        }
    }

    /// What comes after the fields: 15, then 16, then the row.
    fn keep(&mut self, kind: u8, place: usize, found: Found<'a>) -> Field<()> {
        if found.opens.is_some() && self.open.len() == OPEN_LIMIT {
            return Err(Reply::TooDeep);
        }
        if self.records.len() == self.rows {
            return Err(Reply::NoRoom);
        }
        let (owner, slot) = self.take_slots(kind, found.count);
        let row = Row {
            kind,
            offset: place as u32,
            end: self.cursor.at as u32,
            id: found.id as u32,
            owner,
            slot,
            link: found.link,
            count: found.count,
        };
        let number = self.records.len();
        if row.is_object() {
            self.objects.insert(found.id, number);
        }
        if let Some(slots) = found.opens {
            self.open.push(OpenObject { row: number, next: 0, count: found.count, slots });
        }
        self.records.push(Record { row, detail: found.detail });
        Ok(())
    }

    /// Owner word and first slot, with the slots marked as filled.
    fn take_slots(&mut self, kind: u8, count: u32) -> (u32, u32) {
        let filled = match kind {
            LIBRARY => return (0, 0),
            NULL | SHORT_RUN | LONG_RUN => count,
            _ => 1,
        };
        match self.open.last_mut() {
            None => (0, 0),
            Some(owner) => {
                let slot = owner.next;
                owner.next += filled;
                (owner.row as u32 + 1, slot)
            }
        }
    }

    fn header(&mut self) -> Field<Found<'a>> {
        let id = self.cursor.int32()?;
        self.cursor.int32()?;
        self.cursor.version_part(1)?;
        self.cursor.version_part(0)?;
        Ok(Found { id, ..Found::plain() })
    }

    fn unused(&self, id: i32) -> Field<i32> {
        if self.objects.contains_key(&id) {
            Err(Reply::BadId)
        } else {
            Ok(id)
        }
    }

    fn class_object_id(&mut self) -> Field<i32> {
        match self.cursor.int32()? {
            0 => Err(Reply::BadId),
            id => self.unused(id),
        }
    }

    fn object_id(&mut self) -> Field<i32> {
        let id = self.cursor.positive_id()?;
        self.unused(id)
    }

    /// The name of the library that a LibraryId in a class or type names.
    fn library_named(&mut self) -> Field<&'a [u8]> {
        let id = self.cursor.positive_id()?;
        self.libraries.get(&id).copied().ok_or(Reply::NoLibrary)
    }

    fn class_by_id(&mut self) -> Field<Found<'a>> {
        let id = self.class_object_id()?;
        let metadata_id = self.cursor.int32()?;
        let row = *self.objects.get(&metadata_id).ok_or(Reply::NoClass)?;
        let named = &self.records[row];
        match named.detail {
            Detail::Class(class) if named.row.kind != CLASS_BY_ID => {
                Ok(self.object_of_class(id, class, row as u32 + 1))
            }
            _ => Err(Reply::NoClass),
        }
    }

    fn object_of_class(&self, id: i32, class: usize, link: u32) -> Found<'a> {
        let count = self.classes[class].members.len() as u32;
        let opens = (count > 0).then_some(Slots::Members(class));
        Found { id, link, count, detail: Detail::Class(class), opens }
    }

    fn class(&mut self, kind: u8) -> Field<Found<'a>> {
        let id = self.class_object_id()?;
        let name = self.cursor.text()?;
        let members = self.members()?;
        let library = if kind == CLASS { Some(self.library_named()?) } else { None };
        Ok(self.object_of_new_class(id, Class { name, library, members }))
    }

    /// The fields leave the types out; after them the book is asked.
    fn untyped_class(&mut self, kind: u8) -> Field<Found<'a>> {
        let id = self.class_object_id()?;
        let name = self.cursor.text()?;
        let names = self.member_names()?;
        let library = if kind == UNTYPED_CLASS { Some(self.library_named()?) } else { None };
        let types = self.book.types(name, library, &names).ok_or(Reply::NotInBook)?;
        let members = names.into_iter().zip(types).collect();
        Ok(self.object_of_new_class(id, Class { name, library, members }))
    }

    fn object_of_new_class(&mut self, id: i32, class: Class<'a>) -> Found<'a> {
        self.run_rooms.push(run_room(&class));
        self.classes.push(class);
        self.object_of_class(id, self.classes.len() - 1, 0)
    }

    /// Their count stands before them.
    fn member_names(&mut self) -> Field<Vec<&'a [u8]>> {
        let count = self.cursor.count()?;
        (0..count).map(|_| self.cursor.text()).collect()
    }

    /// All names, then all type bytes, then the infos.
    fn members(&mut self) -> Field<Vec<(&'a [u8], SlotType<'a>)>> {
        let names = self.member_names()?;
        let mut type_bytes = Vec::new();
        for _ in 0..names.len() {
            type_bytes.push(self.cursor.type_byte()?);
        }
        let mut members = Vec::new();
        for (name, type_byte) in names.into_iter().zip(type_bytes) {
            members.push((name, self.type_info(type_byte)?));
        }
        Ok(members)
    }

    fn type_info(&mut self, type_byte: u8) -> Field<SlotType<'a>> {
        Ok(match type_byte {
            0 => SlotType::Primitive(self.cursor.primitive_code()?),
            1 => SlotType::String,
            2 => SlotType::Object,
            3 => SlotType::SystemClass(self.cursor.text()?),
            4 => {
                let name = self.cursor.text()?;
                SlotType::Class(name, self.library_named()?)
            }
            5 => SlotType::ObjectArray,
            6 => SlotType::StringArray,
            _ => SlotType::PrimitiveArray(self.cursor.primitive_code()?),
        })
    }

    fn string(&mut self) -> Field<Found<'a>> {
        let id = self.object_id()?;
        let text = self.cursor.text()?;
        Ok(Found { id, detail: Detail::Text(text), ..Found::plain() })
    }

    fn binary_array(&mut self) -> Field<Found<'a>> {
        let id = self.object_id()?;
        let array_type = match self.cursor.byte()? {
            array_type @ 0..=2 => array_type,
            3..=5 => return Err(Reply::NotTaken),
            _ => return Err(Reply::BadType),
        };
        let lengths = self.lengths(array_type)?;
        let count = slot_count(&lengths).ok_or(Reply::BadCount)?;
        let type_byte = self.cursor.type_byte()?;
        let item = self.type_info(type_byte)?;
        self.array(id, Some(array_type), lengths, count, item)
    }

    fn lengths(&mut self, array_type: u8) -> Field<Vec<i32>> {
        let rank = self.cursor.int32()?;
        let ranks = if array_type == 2 { 2..=32 } else { 1..=1 };
        if !ranks.contains(&rank) {
            return Err(Reply::BadCount);
        }
        (0..rank).map(|_| self.length()).collect()
    }

    fn length(&mut self) -> Field<i32> {
        Ok(self.cursor.count()? as i32)
    }

    fn primitive_array(&mut self) -> Field<Found<'a>> {
        let id = self.object_id()?;
        let length = self.length()?;
        let code = self.cursor.primitive_code()?;
        self.array(id, None, vec![length], length as u32, SlotType::Primitive(code))
    }

    fn slot_array(&mut self, item: SlotType<'a>) -> Field<Found<'a>> {
        let id = self.object_id()?;
        let length = self.length()?;
        self.array(id, None, vec![length], length as u32, item)
    }

    /// Primitive items belong to the record's own bytes; other slots open it.
    fn array(
        &mut self,
        id: i32,
        array_type: Option<u8>,
        lengths: Vec<i32>,
        count: u32,
        item: SlotType<'a>,
    ) -> Field<Found<'a>> {
        let (items, opens) = match &item {
            SlotType::Primitive(code) => (self.cursor.items(*code, count)?, None),
            _ => (Items::Bytes(&[]), (count > 0).then(|| Slots::Items(item.clone()))),
        };
        let detail = Detail::Array(Box::new(Array { array_type, lengths, item, items }));
        Ok(Found { id, link: 0, count, detail, opens })
    }

    fn typed_primitive(&mut self) -> Field<Found<'a>> {
        let code = self.cursor.primitive_code()?;
        let value = self.cursor.value(code)?;
        Ok(Found { detail: Detail::Value(code, value), ..Found::plain() })
    }

    fn reference(&mut self) -> Field<Found<'a>> {
        Ok(Found { id: self.cursor.positive_id()?, ..Found::plain() })
    }

    fn null_run(&mut self, kind: u8) -> Field<Found<'a>> {
        let count = if kind == SHORT_RUN {
            u32::from(self.cursor.byte()?)
        } else {
            match self.cursor.count()? {
                0 => return Err(Reply::BadCount),
                count => count,
            }
        };
        if count > self.room_for_run() {
            return Err(Reply::BadCount);
        }
        Ok(Found::run(count))
    }

    fn room_for_run(&self) -> u32 {
        match self.open.last() {
            None => 0,
            Some(OpenObject { next, slots: Slots::Members(class), .. }) => {
                self.run_rooms[*class][*next as usize]
            }
            Some(object) => object.count - object.next,
        }
    }

    fn library(&mut self) -> Field<Found<'a>> {
        let id = self.cursor.positive_id()?;
        if self.libraries.contains_key(&id) {
            return Err(Reply::BadId);
        }
        let name = self.cursor.text()?;
        self.libraries.insert(id, name);
        Ok(Found { id, detail: Detail::Library(name), ..Found::plain() })
    }

    fn after_end(&mut self) -> Result<(), Refusal> {
        if self.cursor.at < self.cursor.stream.len() {
            return Err(Refusal::at(Reply::Trailing, self.cursor.at));
        }
        let root = self.target(0);
        self.records[0].row.link = root.ok_or(Refusal::at(Reply::NoRoot, 0))?;
        for number in 1..self.records.len() {
            if self.records[number].row.kind == REFERENCE {
                let place = self.records[number].row.offset as usize;
                let target = self.target(number);
                let link = target.ok_or(Refusal::at(Reply::NoObject, place))?;
                self.records[number].row.link = link;
            }
        }
        Ok(())
    }

    /// Link word to the object that the id of a row names.
    fn target(&self, number: usize) -> Option<u32> {
        let id = self.records[number].row.id as i32;
        self.objects.get(&id).map(|&row| row as u32 + 1)
    }
}
