//! Makes class books: for a list from a seed, good and damaged ones, and from the
//! typed classes that lists have.

use crate::book::MOST_MEMBERS;
use crate::generate::{damage_at, Array, Class, Filling, List, Object, Random, Type};
use crate::padding::in_bytes;
use crate::stream::{Member, Stream};

/// Names that the classes of a list do not have, or only by chance.
const OTHER_NAMES: [&str; 3] = ["", "Q", "Other"];

/// Why a class cannot be in a book.
pub fn why_not(class: &Class) -> Option<String> {
    let named = |slot_type: &Type| matches!(slot_type, Type::SystemClass(_) | Type::Class(..));
    let typed = class.members.iter().find(|(_, slot_type)| named(slot_type));
    if let Some((name, slot_type)) = typed {
        let number = if matches!(slot_type, Type::SystemClass(_)) { 3 } else { 4 };
        return Some(format!("member {name:?} is of type {number}"));
    }
    let count = class.members.len();
    (count > MOST_MEMBERS).then(|| format!("{count} members"))
}

/// One entry; nothing for a class that cannot be in a book.
pub fn entry(class: &Class) -> Option<Vec<u8>> {
    if why_not(class).is_some() {
        return None;
    }
    let parts: Vec<(u8, Vec<u8>)> =
        class.members.iter().map(|(_, slot)| type_parts(slot)).collect();
    let member = |at: usize| (class.members[at].0, parts[at].0, parts[at].1.as_slice());
    let members: Vec<Member> = (0..parts.len()).map(member).collect();
    Some(Stream::default().entry(class.name, class.library, &members).0)
}

fn type_parts(slot_type: &Type) -> (u8, Vec<u8>) {
    match slot_type {
        Type::Primitive(code) => (0, vec![*code]),
        Type::String => (1, vec![]),
        Type::Object => (2, vec![]),
        Type::SystemClass(_) => (3, vec![]),
        Type::Class(..) => (4, vec![]),
        Type::ObjectArray => (5, vec![]),
        Type::StringArray => (6, vec![]),
        Type::PrimitiveArray(code) => (7, vec![*code]),
    }
}

/// The book with these entries.
pub fn bytes(entries: &[Class]) -> Vec<u8> {
    entries.iter().filter_map(entry).flatten().collect()
}

/// The classes of a list, each once, in the order of their first objects.
pub fn classes<'a>(list: &List<'a>) -> Vec<Class<'a>> {
    let mut found = Vec::new();
    list.objects.iter().for_each(|object| note_classes(object, &mut found));
    found
}

fn note_classes<'a>(object: &Object<'a>, found: &mut Vec<Class<'a>>) {
    let fillings = match object {
        Object::OfClass(class, fillings) => {
            if !found.contains(class) {
                found.push(class.clone());
            }
            fillings
        }
        Object::Array(Array { fillings, .. }) => fillings,
        Object::String(_) => return,
    };
    for filling in fillings {
        if let Filling::Object(nested) = filling {
            note_classes(nested, found);
        }
    }
}

/// The entries of a good book: most classes of the list that can be in one,
/// among others that differ from them in little. An entry with the names of
/// another but other types may stand before it or behind it.
pub fn made_for<'a>(list: &List<'a>, random: &mut Random) -> Vec<Class<'a>> {
    let mut entries = Vec::new();
    for class in classes(list).into_iter().filter(|class| why_not(class).is_none()) {
        if random.chance(40) {
            let other = near(&class, random);
            put_in(other, &mut entries, random);
        }
        if random.chance(90) {
            put_in(class, &mut entries, random);
        }
    }
    entries
}

fn put_in<'a>(class: Class<'a>, entries: &mut Vec<Class<'a>>, random: &mut Random) {
    let at = random.below(entries.len() + 1);
    entries.insert(at, class);
}

/// A class that differs from another in one thing, or in none.
fn near<'a>(class: &Class<'a>, random: &mut Random) -> Class<'a> {
    let mut near = class.clone();
    let last = near.members.len();
    match random.below(6) {
        0 => near.name = random.pick(&OTHER_NAMES),
        1 => near.library = random.pick(&[None, Some(""), Some("L")]),
        2 => near.members.push((random.pick(&OTHER_NAMES), Type::Object)),
        3 => near.members.reverse(),
        4 if last > 0 => {
            near.members[last - 1].1 = random.pick(&[Type::Primitive(8), Type::String])
        }
        5 if last > 0 => near.members[0].0 = random.pick(&OTHER_NAMES),
        _ => {}
    }
    near
}

/// A book with a fault, which it may happen to survive: an entry is changed, cut,
/// left out, or begins otherwise, or the prefix of its class name is padded.
pub fn damaged(entries: &[Class], random: &mut Random) -> Vec<u8> {
    if entries.is_empty() {
        return vec![random.below(3) as u8];
    }
    let spoiled = random.below(entries.len());
    let mut all: Vec<Vec<u8>> = entries.iter().filter_map(entry).collect();
    let one = &mut all[spoiled];
    match random.below(6) {
        0 => one[0] = random.pick(&[0, 1, 2, 255]),
        1 => one.truncate(random.below(one.len())),
        2 => drop(one.splice(1..2, in_bytes(usize::from(one[1]), 2).unwrap_or_default())),
        _ => damage_at(random.below(one.len()), one, random),
    }
    if random.chance(30) {
        all.truncate(spoiled + 1);
    }
    all.concat()
}
