//! What a reading finds besides the rows, for the copy.

use super::ids::Ids;

pub struct Found<'a> {
    pub rows: usize,
    /// Rows of objects; an object's number is its place in record order.
    pub objects: Ids,
    /// Places in `classes`.
    pub class_ids: Ids,
    pub classes: Vec<Class>,
    /// For each object of a class, in record order, the place of its class.
    pub class_of: Vec<u32>,
    /// Places in `libraries`.
    pub library_ids: Ids,
    /// The names.
    pub libraries: Vec<&'a [u8]>,
    /// Type bytes and infos that the book said, class by class.
    pub spelled: Vec<u8>,
    /// In the order of the stream.
    pub uses: Vec<Use>,
    /// In the order of the stream; none where it was read strictly.
    pub padded: Vec<Padded>,
    /// Rows of references whose targets were not yet there.
    pub forward: Vec<usize>,
}

/// A record of kind 2 to 5.
#[derive(Clone, Copy)]
pub struct Class {
    pub row: u32,
    /// Of the object that the record is.
    pub number: u32,
    pub count: u32,
    /// Where the types of its slots stand.
    pub types: usize,
    /// The bytes from its name to its last info, or to its last member name
    /// where the book said the types.
    pub from: usize,
    pub to: usize,
    /// What the book said, from one place of `spelled` to another.
    pub spelled: (usize, usize),
    /// Its uses of libraries, the last its own where it has one.
    pub first_use: usize,
    pub last_use: usize,
    pub is_system: bool,
}

/// A LibraryId in a class or type.
#[derive(Clone, Copy)]
pub struct Use {
    pub place: usize,
    pub library: u32,
}

/// A length prefix that is not the shortest.
#[derive(Clone, Copy)]
pub struct Padded {
    pub place: usize,
    pub end: usize,
    pub length: usize,
}

impl Found<'_> {
    pub fn new() -> Self {
        Found {
            rows: 0,
            objects: Ids::new(),
            class_ids: Ids::new(),
            classes: Vec::new(),
            class_of: Vec::new(),
            library_ids: Ids::new(),
            libraries: Vec::new(),
            spelled: Vec::new(),
            uses: Vec::new(),
            padded: Vec::new(),
            forward: Vec::new(),
        }
    }

    /// The types of a class that stand in the book alone.
    pub fn spelled_of(&self, class: &Class) -> &[u8] {
        let (from, to) = class.spelled;
        &self.spelled[from..to]
    }

    /// The padded prefixes from one place to another.
    pub fn padded_in(&self, from: usize, to: usize) -> &[Padded] {
        let before = self.padded.partition_point(|one| one.place < from);
        let within = self.padded[before..].partition_point(|one| one.place < to);
        &self.padded[before..before + within]
    }
}

/// The bytes of the shortest prefix, one by one.
pub fn prefix(length: usize) -> impl Iterator<Item = u8> {
    let mut rest = Some(length);
    std::iter::from_fn(move || {
        let length = rest?;
        rest = (length > 0x7F).then_some(length >> 7);
        Some(length as u8 & 0x7F | if rest.is_some() { 0x80 } else { 0 })
    })
}
