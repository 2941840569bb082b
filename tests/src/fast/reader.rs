//! One pass over the stream, record by record.

use super::book::Book;
use super::cursor::{Cursor, Field};
use super::found::{Class, Found, Use};
use super::slots::{self, taken, Frame, Opened, Slot};
use crate::reader::*;

/// What the fields of a record give. Kinds 10, 13 and 14 fill `count` slots,
/// libraries none, all others one.
struct Heading {
    id: i32,
    link: u32,
    count: u32,
    opened: Option<Opened>,
}

impl Heading {
    fn new(id: i32, count: u32) -> Heading {
        Heading { id, link: 0, count, opened: None }
    }
}

struct Reader<'a, 't> {
    cursor: Cursor<'a>,
    book: Book,
    table: &'t mut [u32],
    found: Found<'a>,
    /// The innermost open object, and those around it.
    frame: Frame,
    around: Vec<Frame>,
    types: Vec<Slot>,
}

/// After a refusal the table is as the reading left it.
pub fn read<'a>(stream: &'a [u8], table: &mut [u32], terms: Terms) -> Result<Found<'a>, Refusal> {
    let mut reader = Reader {
        cursor: Cursor::new(stream, terms.setting),
        book: Book::judged(terms.book)?,
        table,
        found: Found::new(),
        frame: Frame::TOP,
        around: Vec::with_capacity(OPEN_LIMIT),
        types: vec![slots::TOP, slots::OBJECT, slots::STRING],
    };
    reader.header().map_err(|reply| Refusal::at(reply, 0))?;
    loop {
        let place = reader.cursor.place();
        match reader.next(place) {
            Ok(END) => break,
            Ok(_) => {}
            Err(reply) => return Err(Refusal::at(reply, place)),
        }
    }
    reader.link()?;
    Ok(Found { padded: reader.cursor.into_padded(), ..reader.found })
}

impl<'a> Reader<'a, '_> {
    fn header(&mut self) -> Field<()> {
        taken(self.cursor.byte()?, slots::START)?;
        let root = self.cursor.int32()?;
        self.cursor.int32()?;
        for part in [1, 0] {
            if self.cursor.int32()? != part {
                return Err(Reply::BadVersion);
            }
        }
        self.keep(HEADER, 0, 1, Heading::new(root, 0))
    }

    /// One record or member value; answers its kind.
    #[inline]
    fn next(&mut self, place: usize) -> Field<u8> {
        let kind = match self.types[self.frame.next_type()] {
            Slot::Value(code) => {
                self.cursor.value(code)?;
                self.keep(MEMBER_VALUE, place, 1, Heading::new(0, 0))?;
                MEMBER_VALUE
            }
            Slot::Records(kinds) => {
                let kind = taken(self.cursor.byte()?, kinds)?;
                self.record(kind, place)?;
                kind
            }
        };
        while self.frame.next == self.frame.count {
            self.frame = self.around.pop().unwrap_or(Frame::TOP);
        }
        Ok(kind)
    }

    #[inline]
    fn record(&mut self, kind: u8, place: usize) -> Field<()> {
        match kind {
            TYPED_PRIMITIVE => {
                let code = self.cursor.primitive_code()?;
                self.cursor.value(code)?;
                self.keep(kind, place, 1, Heading::new(0, 0))
            }
            NULL => self.keep(kind, place, 1, Heading::new(0, 1)),
            REFERENCE => self.reference(place),
            STRING => {
                let id = self.object_id()?;
                self.cursor.text()?;
                self.keep(kind, place, 1, Heading::new(id, 0))
            }
            CLASS_BY_ID => {
                let heading = self.class_by_id()?;
                self.open(kind, place, heading)
            }
            _ => self.rare_record(kind, place),
        }
    }

    #[inline(never)]
    fn rare_record(&mut self, kind: u8, place: usize) -> Field<()> {
        let heading = match kind {
            SHORT_RUN | LONG_RUN => {
                let count = self.null_run(kind)?;
                return self.keep(kind, place, count, Heading::new(0, count));
            }
            LIBRARY => return self.library(place),
            SYSTEM_CLASS | CLASS => self.class(kind)?,
            UNTYPED_SYSTEM_CLASS | UNTYPED_CLASS => self.untyped_class(kind)?,
            BINARY_ARRAY => self.binary_array()?,
            PRIMITIVE_ARRAY => self.primitive_array()?,
            OBJECT_ARRAY => self.slot_array(slots::AT_OBJECT)?,
            STRING_ARRAY => self.slot_array(slots::AT_STRING)?,
            _ => Heading::new(0, 0),
        };
        self.open(kind, place, heading)
    }

    /// The row of a record that fills so many slots.
    #[inline]
    fn keep(&mut self, kind: u8, place: usize, filled: u32, heading: Heading) -> Field<()> {
        let Frame { owner, next, step, .. } = self.frame;
        self.write_row(kind, place, [owner, next], &heading)?;
        self.frame.next = next + filled * step;
        Ok(())
    }

    #[inline]
    fn write_row(
        &mut self,
        kind: u8,
        place: usize,
        [owner, slot]: [u32; 2],
        heading: &Heading,
    ) -> Field<()> {
        let from = self.found.rows * ROW_WORDS;
        let row = self.table.get_mut(from..from + ROW_WORDS).ok_or(Reply::NoRoom)?;
        let (place, end) = (place as u32, self.cursor.place() as u32);
        let Heading { id, link, count, .. } = *heading;
        row.copy_from_slice(&[u32::from(kind), place, end, id as u32, owner, slot, link, count]);
        self.found.rows += 1;
        Ok(())
    }

    /// The row of a record that may open an object.
    #[inline]
    fn open(&mut self, kind: u8, place: usize, heading: Heading) -> Field<()> {
        let (opened, count) = (heading.opened, heading.count);
        if opened.is_some() && self.around.len() == OPEN_LIMIT {
            return Err(Reply::TooDeep);
        }
        self.keep(kind, place, 1, heading)?;
        if let Some(Opened { types, mask }) = opened {
            self.around.push(self.frame);
            let owner = self.found.rows as u32;
            self.frame = Frame { owner, next: 0, count, types, mask, step: 1 };
        }
        Ok(())
    }

    /// An id of an object, which is known from here on.
    #[inline]
    fn unused(&mut self, id: i32) -> Field<i32> {
        match self.found.objects.insert(id, self.found.rows as u32) {
            true => Ok(id),
            false => Err(Reply::BadId),
        }
    }

    #[inline]
    fn object_id(&mut self) -> Field<i32> {
        let id = self.cursor.positive_id()?;
        self.unused(id)
    }

    #[inline]
    fn class_object_id(&mut self) -> Field<i32> {
        match self.cursor.int32()? {
            0 => Err(Reply::BadId),
            id => self.unused(id),
        }
    }

    #[inline]
    fn reference(&mut self, place: usize) -> Field<()> {
        let id = self.cursor.positive_id()?;
        let target = self.found.objects.get(id);
        if target.is_none() {
            self.found.forward.push(self.found.rows);
        }
        let link = target.map_or(0, |target| target.value + 1);
        self.keep(REFERENCE, place, 1, Heading { link, ..Heading::new(id, 0) })
    }

    /// A run stays within the object and crosses no primitive member.
    fn null_run(&mut self, kind: u8) -> Field<u32> {
        let count = match kind {
            SHORT_RUN => u32::from(self.cursor.byte()?),
            _ => self.cursor.count()?,
        };
        let Frame { next, count: slots, mask, .. } = self.frame;
        if (kind == LONG_RUN && count == 0) || count > slots - next {
            return Err(Reply::BadCount);
        }
        let first = self.frame.next_type();
        let covered = self.types[first..].iter().take((count & mask) as usize);
        if covered.into_iter().any(|slot| matches!(slot, Slot::Value(_))) {
            return Err(Reply::BadCount);
        }
        Ok(count)
    }

    fn library(&mut self, place: usize) -> Field<()> {
        let id = self.cursor.positive_id()?;
        if !self.found.library_ids.insert(id, self.found.libraries.len() as u32) {
            return Err(Reply::BadId);
        }
        let name = self.cursor.text()?;
        self.found.libraries.push(name);
        self.write_row(LIBRARY, place, [0, 0], &Heading::new(id, 0))
    }

    /// Answers the library's name.
    fn library_use(&mut self) -> Field<&'a [u8]> {
        let place = self.cursor.place();
        let id = self.cursor.positive_id()?;
        let library = self.found.library_ids.get(id).ok_or(Reply::NoLibrary)?.value;
        self.found.uses.push(Use { place, library });
        Ok(self.found.libraries[library as usize])
    }

    #[inline]
    fn class_by_id(&mut self) -> Field<Heading> {
        let id = self.class_object_id()?;
        let named = self.found.class_ids.get(self.cursor.int32()?).ok_or(Reply::NoClass)?;
        self.found.class_of.push(named.value);
        let Class { row, count, types, .. } = self.found.classes[named.value as usize];
        let opened = (count > 0).then(|| Opened::members(types));
        Ok(Heading { id, link: row + 1, count, opened })
    }

    fn class(&mut self, kind: u8) -> Field<Heading> {
        let id = self.class_object_id()?;
        let (from, first_use) = (self.cursor.place(), self.found.uses.len());
        self.cursor.text()?;
        let (types, count) = (self.types.len(), self.members()?);
        let (to, is_system) = (self.cursor.place(), kind == SYSTEM_CLASS);
        if !is_system {
            self.library_use()?;
        }
        let (row, number, last_use, spelled) = (0, 0, 0, (0, 0));
        Ok(self.new_class(
            id,
            Class { row, number, count, types, from, to, spelled, first_use, last_use, is_system },
        ))
    }

    /// The book says the types.
    fn untyped_class(&mut self, kind: u8) -> Field<Heading> {
        let id = self.class_object_id()?;
        let (from, first_use) = (self.cursor.place(), self.found.uses.len());
        let name = self.cursor.text()?;
        let count = self.cursor.count()?;
        let names: Vec<&[u8]> = (0..count).map(|_| self.cursor.text()).collect::<Field<_>>()?;
        let (to, is_system) = (self.cursor.place(), kind == UNTYPED_SYSTEM_CLASS);
        let library = if is_system { None } else { Some(self.library_use()?) };
        let entry = self.book.entry(name, library, &names).ok_or(Reply::NotInBook)?;
        let (types, start) = (self.types.len(), self.found.spelled.len());
        self.types.extend_from_slice(&entry.slots);
        self.found.spelled.extend_from_slice(&entry.spelled);
        let spelled = (start, self.found.spelled.len());
        let (row, number, last_use) = (0, 0, 0);
        Ok(self.new_class(
            id,
            Class { row, number, count, types, from, to, spelled, first_use, last_use, is_system },
        ))
    }

    /// The class gets its row, its object's number and the end of its uses.
    fn new_class(&mut self, id: i32, class: Class) -> Heading {
        let Found { rows, objects, uses, classes, .. } = &self.found;
        let (row, number, last_use) = (*rows as u32, objects.len() as u32, uses.len());
        let at = classes.len() as u32;
        self.found.class_ids.insert(id, at);
        self.found.class_of.push(at);
        self.found.classes.push(Class { row, number, last_use, ..class });
        let opened = (class.count > 0).then(|| Opened::members(class.types));
        Heading { opened, ..Heading::new(id, class.count) }
    }

    /// All names, then all type bytes, then the infos; the types are kept.
    fn members(&mut self) -> Field<u32> {
        let count = self.cursor.count()?;
        self.cursor.texts(count)?;
        for &type_byte in self.cursor.type_bytes(count as usize)? {
            let slot = self.type_info(type_byte)?;
            self.types.push(slot);
        }
        Ok(count)
    }

    fn type_info(&mut self, type_byte: u8) -> Field<Slot> {
        Ok(match type_byte {
            0 => Slot::Value(self.cursor.primitive_code()?),
            1 => slots::STRING,
            2 => slots::OBJECT,
            3 => {
                self.cursor.text()?;
                slots::OBJECT
            }
            4 => {
                self.cursor.text()?;
                self.library_use()?;
                slots::OBJECT
            }
            5 | 6 => slots::ARRAY,
            _ => {
                self.cursor.primitive_code()?;
                slots::ARRAY
            }
        })
    }

    fn binary_array(&mut self) -> Field<Heading> {
        let id = self.object_id()?;
        let ranks = match self.cursor.byte()? {
            0 | 1 => 1..=1,
            2 => 2..=32,
            3..=5 => return Err(Reply::NotTaken),
            _ => return Err(Reply::BadType),
        };
        let count = self.slot_count(ranks)?;
        let type_byte = self.cursor.type_bytes(1)?[0];
        let slot = self.type_info(type_byte)?;
        if let Slot::Value(code) = slot {
            self.cursor.items(code, count as usize)?;
            return Ok(Heading::new(id, count));
        }
        let types = self.types.len();
        self.types.push(slot);
        Ok(Heading { opened: (count > 0).then(|| Opened::items(types)), ..Heading::new(id, count) })
    }

    /// The product of all lengths. It stays at the greatest number where it
    /// would pass that, and one length of 0 makes it 0 all the same.
    fn slot_count(&mut self, ranks: std::ops::RangeInclusive<i32>) -> Field<u32> {
        let rank = self.cursor.int32()?;
        if !ranks.contains(&rank) {
            return Err(Reply::BadCount);
        }
        let mut product = 1u64;
        for _ in 0..rank {
            product = product.saturating_mul(u64::from(self.cursor.count()?));
        }
        match product {
            0..=SLOT_LIMIT => Ok(product as u32),
            _ => Err(Reply::BadCount),
        }
    }

    fn primitive_array(&mut self) -> Field<Heading> {
        let id = self.object_id()?;
        let count = self.cursor.count()?;
        let code = self.cursor.primitive_code()?;
        self.cursor.items(code, count as usize)?;
        Ok(Heading::new(id, count))
    }

    fn slot_array(&mut self, types: usize) -> Field<Heading> {
        let id = self.object_id()?;
        let count = self.cursor.count()?;
        Ok(Heading { opened: (count > 0).then(|| Opened::items(types)), ..Heading::new(id, count) })
    }

    /// After the end record: bytes behind it, the root, and the targets that
    /// stood after their references.
    fn link(&mut self) -> Result<(), Refusal> {
        if !self.cursor.is_at_end() {
            return Err(Refusal::at(Reply::Trailing, self.cursor.place()));
        }
        self.link_row(0, Reply::NoRoot)?;
        for at in 0..self.found.forward.len() {
            self.link_row(self.found.forward[at], Reply::NoObject)?;
        }
        self.table[self.found.rows * ROW_WORDS..].fill(0);
        Ok(())
    }

    fn link_row(&mut self, row: usize, reply: Reply) -> Result<(), Refusal> {
        let words = &mut self.table[row * ROW_WORDS..][..ROW_WORDS];
        let target = self.found.objects.get(words[3] as i32);
        words[6] = target.ok_or(Refusal::at(reply, words[1] as usize))?.value + 1;
        Ok(())
    }
}
