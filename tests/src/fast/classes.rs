//! Which classes are equal, and which libraries have one name.

use super::found::{prefix, Class, Found, Padded};
use std::borrow::Cow;
use std::collections::HashMap;
use std::hash::{BuildHasherDefault, Hash, Hasher};

pub struct Firsts {
    /// By library: the first with its name.
    pub libraries: Vec<u32>,
    /// By class: the number of the first object of an equal class.
    pub classes: Vec<u32>,
}

/// The own library, 0 for a system class, and the bytes from the name to the
/// last info, of which the book may say the last, each LibraryId replaced by the
/// first library with its name, and each padded prefix by the shortest.
#[derive(PartialEq, Eq, Hash)]
struct Content<'a> {
    library: u32,
    bytes: Cow<'a, [u8]>,
}

type Firstly<K> = HashMap<K, u32, BuildHasherDefault<Quick>>;

pub fn by_first(stream: &[u8], found: &Found) -> Firsts {
    let mut names: Firstly<&[u8]> = HashMap::default();
    let first = |(at, name)| *names.entry(name).or_insert(at);
    let libraries: Vec<u32> = (0..).zip(found.libraries.iter().copied()).map(first).collect();
    let mut contents: Firstly<Content> = HashMap::default();
    let first = |class: &Class| {
        let content = content(stream, class, found, &libraries);
        *contents.entry(content).or_insert(class.number)
    };
    let classes = found.classes.iter().map(first).collect();
    Firsts { libraries, classes }
}

fn content<'a>(stream: &'a [u8], class: &Class, found: &Found, libraries: &[u32]) -> Content<'a> {
    let first = |library: u32| libraries[library as usize];
    let mut uses = &found.uses[class.first_use..class.last_use];
    let mut library = 0;
    if let (false, [infos @ .., own]) = (class.is_system, uses) {
        library = first(own.library) + 1;
        uses = infos;
    }
    let mut bytes = Cow::Borrowed(&stream[class.from..class.to]);
    for one in uses {
        let at = one.place - class.from;
        bytes.to_mut()[at..at + 4].copy_from_slice(&first(one.library).to_le_bytes());
    }
    let padded = found.padded_in(class.from, class.to);
    if !padded.is_empty() {
        bytes = Cow::Owned(unpadded(&bytes, class.from, padded));
    }
    let spelled = found.spelled_of(class);
    if !spelled.is_empty() {
        bytes.to_mut().extend_from_slice(spelled);
    }
    Content { library, bytes }
}

/// The bytes, which stand at `start` in the stream, with the shortest prefixes.
fn unpadded(bytes: &[u8], start: usize, padded: &[Padded]) -> Vec<u8> {
    let (mut shorter, mut from) = (Vec::with_capacity(bytes.len()), 0);
    for one in padded {
        shorter.extend_from_slice(&bytes[from..one.place - start]);
        shorter.extend(prefix(one.length));
        from = one.end - start;
    }
    shorter.extend_from_slice(&bytes[from..]);
    shorter
}

/// Eight bytes at a time.
#[derive(Default)]
struct Quick(u64);

impl Quick {
    fn add(&mut self, word: u64) {
        self.0 = (self.0.rotate_left(5) ^ word).wrapping_mul(0x9E37_79B9_7F4A_7C15);
    }
}

impl Hasher for Quick {
    fn write(&mut self, bytes: &[u8]) {
        for part in bytes.chunks(8) {
            let mut word = [0; 8];
            word[..part.len()].copy_from_slice(part);
            self.add(u64::from_le_bytes(word));
        }
    }

    fn write_u32(&mut self, number: u32) {
        self.add(u64::from(number));
    }

    fn write_usize(&mut self, number: usize) {
        self.add(number as u64);
    }

    fn finish(&self) -> u64 {
        self.0.rotate_left(26)
    }
}
