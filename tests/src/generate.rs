//! Makes small lists from a seed, packs one list in many ways, with a class book
//! or without, and damages streams.

use crate::reader::{DECIMAL, LAST_TICK, UNTYPED_TAKEN};
use crate::stream::{Member, Stream};

/// Splitmix64: enough for choosing, and the same everywhere.
pub struct Random(u64);

impl Random {
    pub fn new(seed: u64) -> Random {
        Random(seed)
    }

    pub fn draw(&mut self) -> u64 {
        self.0 = self.0.wrapping_add(0x9e37_79b9_7f4a_7c15);
        let mut mixed = self.0;
        mixed = (mixed ^ (mixed >> 30)).wrapping_mul(0xbf58_476d_1ce4_e5b9);
        mixed = (mixed ^ (mixed >> 27)).wrapping_mul(0x94d0_49bb_1331_11eb);
        mixed ^ (mixed >> 31)
    }

    pub fn below(&mut self, limit: usize) -> usize {
        (self.draw() % limit as u64) as usize
    }

    pub fn chance(&mut self, percent: usize) -> bool {
        self.below(100) < percent
    }

    pub fn pick<T: Clone>(&mut self, choices: &[T]) -> T {
        choices[self.below(choices.len())].clone()
    }

    fn bytes(&mut self, count: usize) -> Vec<u8> {
        (0..count).map(|_| self.draw() as u8).collect()
    }
}

const CODES: [u8; 15] = [1, 2, 3, 5, 6, 7, 8, 9, 10, 11, 12, 13, 14, 15, 16];
const NAMES: [&str; 6] = ["", "P", "Q", "Qt", "\u{e9}", "Part"];
const LIBRARY_NAMES: [&str; 4] = ["", "L", "M", "Lib"];
const TEXTS: [&str; 6] = ["", "12E5", "A", "\u{20ac}1", "\0", "\u{1f600}"];
const CHARS: [&str; 6] = ["A", "\0", "\u{7f}", "\u{e9}", "\u{20ac}", "\u{1f600}"];
const DECIMALS: [&str; 7] = ["0", "-0", "1.5", "-12.25", "007", "0.000", "12"];

#[derive(Clone, PartialEq, Debug)]
pub enum Type<'a> {
    Primitive(u8),
    String,
    Object,
    SystemClass(&'a str),
    Class(&'a str, &'a str),
    ObjectArray,
    StringArray,
    PrimitiveArray(u8),
}

#[derive(Clone, PartialEq, Debug)]
pub struct Class<'a> {
    pub name: &'a str,
    pub library: Option<&'a str>,
    pub members: Vec<(&'a str, Type<'a>)>,
}

impl Class<'_> {
    /// Whether a record of kind 2 or 3 of either class has the same names.
    pub fn has_names_of(&self, other: &Class) -> bool {
        let names = |class: &Self| class.members.iter().map(|(name, _)| *name).collect::<Vec<_>>();
        let other_names: Vec<&str> = other.members.iter().map(|(name, _)| *name).collect();
        self.name == other.name && self.library == other.library && names(self) == other_names
    }
}

/// What fills one slot. Values have their code, and Decimals no prefix. A
/// reference counts its target by object order, taken modulo the number of
/// objects.
#[derive(Clone, PartialEq, Debug)]
pub enum Filling<'a> {
    Value(u8, Vec<u8>),
    Null,
    Typed(u8, Vec<u8>),
    Reference(usize),
    Object(Object<'a>),
}

#[derive(Clone, PartialEq, Debug)]
pub enum Object<'a> {
    OfClass(Class<'a>, Vec<Filling<'a>>),
    String(&'a str),
    Array(Array<'a>),
}

/// Kind 7, 15, 16 or 17.
#[derive(Clone, PartialEq, Debug)]
pub struct Array<'a> {
    pub kind: u8,
    pub array_type: u8,
    pub lengths: Vec<i32>,
    pub item: Type<'a>,
    pub fillings: Vec<Filling<'a>>,
}

/// What a list says, whatever its packing.
#[derive(Clone, PartialEq, Debug)]
pub struct List<'a> {
    pub objects: Vec<Object<'a>>,
    pub root: usize,
}

const DEEPEST: usize = 4;

struct Maker<'r> {
    random: &'r mut Random,
    classes: Vec<Class<'static>>,
    objects_left: usize,
}

/// A list of a few objects.
pub fn list(random: &mut Random) -> List<'static> {
    let mut maker = Maker { random, classes: Vec::new(), objects_left: 0 };
    for _ in 0..1 + maker.random.below(3) {
        let class = maker.class();
        maker.classes.push(class);
    }
    maker.objects_left = 1 + maker.random.below(7);
    let mut objects = Vec::new();
    while maker.objects_left > 0 {
        let object = maker.top_level_object();
        objects.push(object);
    }
    let root = maker.random.below(1000);
    List { objects, root }
}

impl Maker<'_> {
    fn class(&mut self) -> Class<'static> {
        if !self.classes.is_empty() && self.random.chance(30) {
            return self.near_twin();
        }
        let library = self.random.chance(50).then(|| self.random.pick(&LIBRARY_NAMES));
        let name = self.random.pick(&NAMES);
        let members = (0..self.random.below(5)).map(|_| self.member()).collect();
        Class { name, library, members }
    }

    /// A class that differs from another in one thing.
    fn near_twin(&mut self) -> Class<'static> {
        let mut twin = self.random.pick(&self.classes.clone());
        match self.random.below(3) {
            0 => twin.name = self.random.pick(&NAMES),
            1 => twin.library = if twin.library.is_none() { Some("") } else { None },
            _ => {
                let member = self.member();
                twin.members.pop();
                twin.members.push(member);
            }
        }
        twin
    }

    fn member(&mut self) -> (&'static str, Type<'static>) {
        (self.random.pick(&NAMES), self.slot_type())
    }

    fn slot_type(&mut self) -> Type<'static> {
        match self.random.below(11) {
            0..=2 => Type::Primitive(self.random.pick(&CODES)),
            3 => Type::String,
            4 | 5 => Type::Object,
            6 => Type::SystemClass(self.random.pick(&NAMES)),
            7 => Type::Class(self.random.pick(&NAMES), self.random.pick(&LIBRARY_NAMES)),
            8 => Type::ObjectArray,
            9 => Type::StringArray,
            _ => Type::PrimitiveArray(self.random.pick(&CODES)),
        }
    }

    fn top_level_object(&mut self) -> Object<'static> {
        self.objects_left -= 1;
        match self.random.below(10) {
            0 => Object::String(self.random.pick(&TEXTS)),
            1 | 2 => self.binary_array(),
            3 => self.primitive_array(),
            4 | 5 => self.slot_array(16, Type::Object),
            6 => self.slot_array(17, Type::String),
            _ => self.object_of_class(1),
        }
    }

    fn object_of_class(&mut self, depth: usize) -> Object<'static> {
        let class = self.random.pick(&self.classes.clone());
        let types = class.members.iter().map(|(_, slot_type)| slot_type.clone());
        let types: Vec<Type<'static>> = types.collect();
        let fillings = types.iter().map(|slot_type| self.filling(slot_type, depth)).collect();
        Object::OfClass(class, fillings)
    }

    fn binary_array(&mut self) -> Object<'static> {
        let array_type = self.random.below(3) as u8;
        let rank = if array_type == 2 { 2 + self.random.below(2) } else { 1 };
        let longest = if rank == 1 { 6 } else { 3 };
        let lengths: Vec<i32> = (0..rank).map(|_| self.random.below(longest) as i32).collect();
        let item = self.slot_type();
        let fillings = self.fillings(&item, lengths.iter().product());
        Object::Array(Array { kind: 7, array_type, lengths, item, fillings })
    }

    fn primitive_array(&mut self) -> Object<'static> {
        let length = self.random.below(5) as i32;
        let item = Type::Primitive(self.random.pick(&CODES));
        let fillings = self.fillings(&item, length);
        Object::Array(Array { kind: 15, array_type: 0, lengths: vec![length], item, fillings })
    }

    fn slot_array(&mut self, kind: u8, item: Type<'static>) -> Object<'static> {
        let long = self.random.chance(8);
        let length = if long { 254 + self.random.below(5) } else { self.random.below(7) } as i32;
        let mut fillings = if long { Vec::new() } else { self.fillings(&item, length) };
        if long {
            fillings.resize(length as usize, Filling::Null);
            let broken = self.random.below(length as usize);
            fillings[broken] = self.filling(&item, DEEPEST);
        }
        Object::Array(Array { kind, array_type: 0, lengths: vec![length], item, fillings })
    }

    fn fillings(&mut self, item: &Type<'static>, count: i32) -> Vec<Filling<'static>> {
        (0..count).map(|_| self.filling(item, 1)).collect()
    }

    fn filling(&mut self, slot_type: &Type<'static>, depth: usize) -> Filling<'static> {
        let choice = self.random.below(100);
        match slot_type {
            Type::Primitive(code) => Filling::Value(*code, self.value(*code)),
            _ if choice < 35 => Filling::Null,
            _ if choice < 50 => self.reference(),
            Type::String if self.objects_left > 0 => self.nested_string(),
            Type::Object | Type::SystemClass(_) | Type::Class(..) => {
                if choice < 60 {
                    let code = self.random.pick(&CODES);
                    Filling::Typed(code, self.value(code))
                } else if self.objects_left == 0 {
                    Filling::Null
                } else if choice < 70 || depth >= DEEPEST {
                    self.nested_string()
                } else {
                    self.objects_left -= 1;
                    Filling::Object(self.object_of_class(depth + 1))
                }
            }
            _ => self.reference(),
        }
    }

    fn reference(&mut self) -> Filling<'static> {
        Filling::Reference(self.random.below(1000))
    }

    fn nested_string(&mut self) -> Filling<'static> {
        self.objects_left -= 1;
        Filling::Object(Object::String(self.random.pick(&TEXTS)))
    }

    fn value(&mut self, code: u8) -> Vec<u8> {
        match code {
            1 => vec![self.random.below(2) as u8],
            3 => self.random.pick(&CHARS).as_bytes().to_vec(),
            DECIMAL => self.random.pick(&DECIMALS).as_bytes().to_vec(),
            13 => self.date_time(),
            2 | 10 => self.random.bytes(1),
            7 | 14 => self.random.bytes(2),
            8 | 11 | 15 => self.random.bytes(4),
            _ => self.random.bytes(8),
        }
    }

    /// Any tick of the years 1 to 9999; the first and the last come often.
    fn date_time(&mut self) -> Vec<u8> {
        let any = self.random.draw() % (LAST_TICK + 1);
        let ticks = self.random.pick(&[0, any, any, LAST_TICK]);
        let kind = self.random.below(3) as u64;
        (kind << 62 | ticks).to_le_bytes().to_vec()
    }
}

/// LibraryIds are small where there are few.
const FEW_LIBRARIES: usize = 60;

struct Packer<'r, 'a> {
    random: &'r mut Random,
    /// The entries of the class book, in order.
    book: &'r [Class<'a>],
    stream: Stream,
    /// ObjectIds by object order.
    ids: Vec<i32>,
    packed: usize,
    /// Classes that stand in a record of kind 2 to 5, with its ObjectId.
    classes: Vec<(Class<'a>, i32)>,
    libraries: Vec<(i32, &'a str)>,
    /// Chance in a hundred of an unneeded record before a kind byte.
    litter: usize,
}

/// One of the many streams that say what the list says.
pub fn pack(list: &List, random: &mut Random) -> Vec<u8> {
    pack_with(&[], list, random)
}

/// One of the many that say it to a reader with this book.
pub fn pack_with<'a>(book: &[Class<'a>], list: &List<'a>, random: &mut Random) -> Vec<u8> {
    let ids = object_ids(list, random);
    let litter = random.pick(&[0, 0, 5, 15]);
    let root = ids[list.root % ids.len()];
    let header = random.pick(&[root, 1, -1, 0, 77]);
    let mut packer = Packer {
        random,
        book,
        stream: Stream::default().header(root, header),
        ids,
        packed: 0,
        classes: Vec::new(),
        libraries: Vec::new(),
        litter,
    };
    packer.early_libraries();
    for object in &list.objects {
        packer.litter_library();
        packer.object(object);
    }
    packer.litter_library();
    packer.stream.end().0
}

/// What choosing ids needs to know of the objects in record order.
#[derive(Default)]
struct Census {
    of_class: Vec<bool>,
    targets: Vec<usize>,
}

impl Census {
    fn of(list: &List) -> Census {
        let mut census = Census::default();
        list.objects.iter().for_each(|object| census.note(object));
        census
    }

    fn note(&mut self, object: &Object) {
        self.of_class.push(matches!(object, Object::OfClass(..)));
        let fillings = match object {
            Object::OfClass(_, fillings) | Object::Array(Array { fillings, .. }) => fillings,
            Object::String(_) => return,
        };
        for filling in fillings {
            match filling {
                Filling::Object(nested) => self.note(nested),
                Filling::Reference(target) => self.targets.push(*target),
                _ => {}
            }
        }
    }

    /// An IdRef is positive, so only what no reference names may be negative.
    fn may_be_negative(&self, object: usize) -> bool {
        let count = self.of_class.len();
        self.of_class[object] && self.targets.iter().all(|target| target % count != object)
    }
}

fn object_ids(list: &List, random: &mut Random) -> Vec<i32> {
    let census = Census::of(list);
    let count = census.of_class.len();
    let spread = random.pick(&[0, 3, 200, 2_000_000_000]);
    let mut ids: Vec<i32> = Vec::new();
    for object in 0..count {
        let id = loop {
            let id = 1 + random.below(count + spread) as i32;
            let negative = census.may_be_negative(object) && random.chance(20);
            let id = if negative { -id } else { id };
            if !ids.contains(&id) {
                break id;
            }
        };
        ids.push(id);
    }
    ids
}

impl<'a> Packer<'_, 'a> {
    fn put(&mut self, write: impl FnOnce(Stream) -> Stream) {
        self.stream = write(std::mem::take(&mut self.stream));
    }

    fn early_libraries(&mut self) {
        if self.random.chance(30) {
            for name in &LIBRARY_NAMES[..self.random.below(3)] {
                self.library(name);
            }
        }
    }

    fn library(&mut self, name: &'a str) {
        let choice = FEW_LIBRARIES.max(2 * self.libraries.len());
        let id = loop {
            let id = 1 + self.random.below(choice) as i32;
            if self.libraries.iter().all(|(known, _)| *known != id) {
                break id;
            }
        };
        self.libraries.push((id, name));
        self.put(|stream| stream.library(id, name));
    }

    fn litter_library(&mut self) {
        if self.random.chance(self.litter) {
            let name = self.random.pick(&LIBRARY_NAMES);
            self.library(name);
        }
    }

    fn litter_slot(&mut self) {
        self.litter_library();
        if self.random.chance(self.litter) {
            self.put(|stream| stream.nulls(0));
            self.litter_library();
        }
    }

    /// Before a record: every library it names stands somewhere.
    fn need(&mut self, name: &'a str) {
        let missing = self.libraries.iter().all(|(_, known)| *known != name);
        if missing || self.random.chance(self.litter) {
            self.library(name);
        }
    }

    fn library_id(&mut self, name: &'a str) -> i32 {
        let named = self.libraries.iter().filter(|(_, known)| *known == name);
        let ids: Vec<i32> = named.map(|(id, _)| *id).collect();
        self.random.pick(&ids)
    }

    fn next_id(&mut self) -> i32 {
        self.packed += 1;
        self.ids[self.packed - 1]
    }

    fn object(&mut self, object: &Object<'a>) {
        match object {
            Object::String(text) => {
                let id = self.next_id();
                self.put(|stream| stream.string(id, text));
            }
            Object::OfClass(class, fillings) => {
                self.object_of_class(class);
                self.fillings(fillings);
            }
            Object::Array(array) => {
                self.array(array);
                self.fillings(&array.fillings);
            }
        }
    }

    fn object_of_class(&mut self, class: &Class<'a>) {
        let records = self.classes.iter().filter(|(known, _)| known == class);
        let records: Vec<i32> = records.map(|(_, id)| *id).collect();
        if records.is_empty() || self.random.chance(30) {
            return self.whole_class(class);
        }
        let id = self.next_id();
        let metadata_id = self.random.pick(&records);
        self.put(|stream| stream.by_id(id, metadata_id));
    }

    fn whole_class(&mut self, class: &Class<'a>) {
        class.members.iter().for_each(|(_, slot_type)| self.need_of(slot_type));
        class.library.into_iter().for_each(|library| self.need(library));
        let id = self.next_id();
        self.classes.push((class.clone(), id));
        if self.is_in_book(class) && self.random.chance(75) {
            return self.untyped_class(id, class);
        }
        let types = class.members.iter().map(|(_, slot_type)| self.type_parts(slot_type));
        let types: Vec<(u8, Vec<u8>)> = types.collect();
        let member = |at: usize| (class.members[at].0, types[at].0, types[at].1.as_slice());
        let members: Vec<Member> = (0..types.len()).map(member).collect();
        match class.library {
            None => self.put(|stream| stream.system(id, class.name, &members)),
            Some(name) => {
                let library = self.library_id(name);
                self.put(|stream| stream.class(id, class.name, &members, library));
            }
        }
    }

    /// Whether the book gives the class its own types.
    fn is_in_book(&self, class: &Class) -> bool {
        let first = self.book.iter().find(|entry| entry.has_names_of(class));
        UNTYPED_TAKEN && first.is_some_and(|entry| entry == class)
    }

    fn untyped_class(&mut self, id: i32, class: &Class<'a>) {
        let names: Vec<&str> = class.members.iter().map(|(name, _)| *name).collect();
        match class.library {
            None => self.put(|stream| stream.untyped_system(id, class.name, &names)),
            Some(name) => {
                let library = self.library_id(name);
                self.put(|stream| stream.untyped(id, class.name, &names, library));
            }
        }
    }

    fn need_of(&mut self, slot_type: &Type<'a>) {
        if let Type::Class(_, library) = slot_type {
            self.need(library);
        }
    }

    /// Type byte and info.
    fn type_parts(&mut self, slot_type: &Type<'a>) -> (u8, Vec<u8>) {
        match slot_type {
            Type::Primitive(code) => (0, vec![*code]),
            Type::String => (1, vec![]),
            Type::Object => (2, vec![]),
            Type::SystemClass(name) => (3, Stream::default().text(name).0),
            Type::Class(name, library) => {
                let library = self.library_id(library);
                (4, Stream::default().text(name).int(library).0)
            }
            Type::ObjectArray => (5, vec![]),
            Type::StringArray => (6, vec![]),
            Type::PrimitiveArray(code) => (7, vec![*code]),
        }
    }

    fn array(&mut self, array: &Array<'a>) {
        self.need_of(&array.item);
        let id = self.next_id();
        let (type_byte, info) = self.type_parts(&array.item);
        let length = array.lengths[0];
        self.put(|stream| match array.kind {
            7 => {
                stream.array(id, array.array_type, &array.lengths).bytes(&[type_byte]).bytes(&info)
            }
            15 => stream.primitives(id, length, info[0], &[]),
            16 => stream.objects(id, length),
            _ => stream.strings(id, length),
        });
    }

    fn fillings(&mut self, fillings: &[Filling<'a>]) {
        let mut rest = fillings;
        while let Some(filling) = rest.first() {
            let nulls = rest.iter().take_while(|filling| **filling == Filling::Null).count();
            let filled = if nulls > 0 { self.nulls(nulls) } else { self.filling(filling) };
            rest = &rest[filled..];
        }
    }

    fn filling(&mut self, filling: &Filling<'a>) -> usize {
        if !matches!(filling, Filling::Value(..)) {
            self.litter_slot();
        }
        match filling {
            Filling::Value(code, value) => self.put(|stream| stream.value(*code, value)),
            Filling::Typed(code, value) => {
                self.put(|stream| stream.typed(*code, &[]).value(*code, value));
            }
            Filling::Reference(target) => {
                let id = self.ids[target % self.ids.len()];
                self.put(|stream| stream.reference(id));
            }
            Filling::Object(object) => self.object(object),
            Filling::Null => self.put(Stream::null),
        }
        1
    }

    /// A part of the run that waits; answers how long the part is.
    fn nulls(&mut self, waiting: usize) -> usize {
        self.litter_slot();
        let whole = self.random.chance(60);
        let part = if whole { waiting } else { 1 + self.random.below(waiting) };
        let form = self.random.below(if part > 255 { 1 } else { 4 });
        self.put(|stream| match (form, part) {
            (0, _) => stream.long_nulls(part as i32),
            (1.., 1) if form < 3 => stream.null(),
            _ => stream.nulls(part as u8),
        });
        part
    }
}

/// Bytes of a stream of a usual size.
pub const USUAL_BYTES: usize = 140;

/// A stream of a usual size that a right reader accepts.
pub fn valid(random: &mut Random) -> Vec<u8> {
    loop {
        let stream = pack(&list(random), random);
        if stream.len() <= USUAL_BYTES {
            return stream;
        }
    }
}

/// The stream with one or two faults, which it may happen to survive.
pub fn damaged(stream: &[u8], random: &mut Random) -> Vec<u8> {
    let mut bytes = stream.to_vec();
    for _ in 0..1 + random.below(4) / 3 {
        if !bytes.is_empty() {
            damage(&mut bytes, random);
        }
    }
    bytes
}

fn damage(bytes: &mut Vec<u8>, random: &mut Random) {
    // The header takes few damages: most of them end in the same refusal.
    let start = if bytes.len() > 18 && random.chance(90) { 17 } else { 0 };
    damage_at(start + random.below(bytes.len() - start), bytes, random);
}

pub(crate) fn damage_at(at: usize, bytes: &mut Vec<u8>, random: &mut Random) {
    match random.below(8) {
        0 => bytes.truncate(at),
        1 => bytes[at] ^= 1 << random.below(8),
        2 => bytes[at] = random.below(24) as u8,
        3 => bytes[at] = bytes[at].wrapping_add(random.pick(&[1, 255, 128])),
        4 => bytes.insert(at, random.pick(&[0, 1, 6, 10, 11, 12, 13, 128, 255])),
        5 => drop(bytes.remove(at)),
        6 => swap_fields(bytes, at),
        _ => change_int(bytes, at, random.pick(&[0, 1, 2, -1, 300, i32::MAX, i32::MIN])),
    }
}

fn swap_fields(bytes: &mut [u8], at: usize) {
    let width = 4.min((bytes.len() - at) / 2);
    let (before, after) = bytes.split_at_mut(at + width);
    before[at..].swap_with_slice(&mut after[..width]);
}

fn change_int(bytes: &mut [u8], at: usize, number: i32) {
    for (old, new) in bytes[at..].iter_mut().zip(number.to_le_bytes()) {
        *old = new;
    }
}
