//! The class book: entries one after the other, each a class with the types of
//! its members, so that a record of kind 2 or 3 need not say them.

use crate::reader::{Cursor, Field, Refusal, Reply, Setting, SlotType};

/// The last place that is kept in 32 bits.
const LAST_PLACE: usize = u32::MAX as usize;

/// The most members that an entry can have.
pub const MOST_MEMBERS: usize = u8::MAX as usize;

/// First byte of an entry.
pub const SYSTEM_ENTRY: u8 = 0;
pub const LIBRARY_ENTRY: u8 = 1;

/// Types 3 and 4 have no place in a book, so no type holds a name of it.
struct Entry<'b> {
    name: &'b [u8],
    library: Option<&'b [u8]>,
    members: Vec<(&'b [u8], SlotType<'static>)>,
}

/// A good one.
pub struct Book<'b>(Vec<Entry<'b>>);

impl<'b> Book<'b> {
    /// The whole book is judged; the place is that of the first bad entry.
    pub fn judged(bytes: &'b [u8]) -> Result<Book<'b>, Refusal> {
        // Not one prefix of a book may be padded, whatever the setting.
        let mut cursor = Cursor::new(bytes, 0, Setting::Strict);
        let mut entries = Vec::new();
        while cursor.at < bytes.len() {
            let place = cursor.at;
            let entry = entry(&mut cursor).map_err(|_| Refusal::at(Reply::BadBook, place))?;
            entries.push(entry);
        }
        Ok(Book(entries))
    }

    /// What the first entry of this class with these member names says, in
    /// order. A system class has no library.
    pub fn types(
        &self,
        name: &[u8],
        library: Option<&[u8]>,
        member_names: &[&[u8]],
    ) -> Option<Vec<SlotType<'static>>> {
        let equal = |entry: &&Entry| {
            let names = entry.members.iter().map(|(name, _)| name);
            entry.name == name && entry.library == library && names.eq(member_names)
        };
        let entry = self.0.iter().find(equal)?;
        Some(entry.members.iter().map(|(_, slot_type)| slot_type.clone()).collect())
    }
}

fn entry<'b>(cursor: &mut Cursor<'b>) -> Field<Entry<'b>> {
    let first = cursor.byte()?;
    let name = cursor.text()?;
    let library = match first {
        SYSTEM_ENTRY => None,
        LIBRARY_ENTRY => Some(cursor.text()?),
        _ => return Err(Reply::BadType),
    };
    let count = cursor.byte()?;
    let members: Field<Vec<_>> = (0..count).map(|_| member(cursor)).collect();
    let entry = Entry { name, library, members: members? };
    match cursor.at {
        0..=LAST_PLACE => Ok(entry),
        _ => Err(Reply::CutShort),
    }
}

fn member<'b>(cursor: &mut Cursor<'b>) -> Field<(&'b [u8], SlotType<'static>)> {
    let name = cursor.text()?;
    let slot_type = match cursor.byte()? {
        0 => SlotType::Primitive(cursor.primitive_code()?),
        1 => SlotType::String,
        2 => SlotType::Object,
        5 => SlotType::ObjectArray,
        6 => SlotType::StringArray,
        7 => SlotType::PrimitiveArray(cursor.primitive_code()?),
        _ => return Err(Reply::BadType),
    };
    Ok((name, slot_type))
}

#[cfg(test)]
mod tests {
    use super::*;
    use crate::reader::{read, Setting::Lenient, Setting::Strict, STREAM_LIMIT, UNTYPED_TAKEN};
    use crate::same::same;
    use crate::stream::{Member, Stream};

    const INT32: u8 = 8;
    const NUMBER: Member = ("a", 0, &[INT32]);
    const TEXT: Member = ("b", 1, &[]);

    fn book() -> Stream {
        Stream::default().entry("P", None, &[NUMBER]).entry("P", Some("L"), &[TEXT])
    }

    fn refusal_of(book: &[u8]) -> Option<(u32, usize)> {
        let refusal = Book::judged(book).err()?;
        Some((refusal.number, refusal.place))
    }

    #[test]
    fn entries_are_found_by_all_their_names() {
        let bytes = book().entry("P", None, &[("a", 2, &[])]).entry("P", None, &[]).0;
        let book = Book::judged(&bytes).unwrap();
        let types = |name: &str, library: Option<&str>, names: &[&str]| {
            let names: Vec<&[u8]> = names.iter().map(|name| name.as_bytes()).collect();
            book.types(name.as_bytes(), library.map(str::as_bytes), &names)
        };
        assert_eq!(types("P", None, &["a"]), Some(vec![SlotType::Primitive(INT32)]));
        assert_eq!(types("P", Some("L"), &["b"]), Some(vec![SlotType::String]));
        assert_eq!(types("P", None, &[]), Some(vec![]));
        assert_eq!(types("P", None, &["b"]), None);
        assert_eq!(types("P", Some("L"), &["a"]), None);
        assert_eq!(types("P", Some(""), &["a"]), None);
        assert_eq!(types("Q", None, &["a"]), None);
        assert_eq!(types("P", None, &["a", "b"]), None);
    }

    #[test]
    fn no_bytes_are_a_good_book() {
        assert_eq!(refusal_of(&[]), None);
    }

    /// A book that is cut is good where an entry ends, and bad at the entry that
    /// is cut elsewhere.
    #[test]
    fn cut_at_every_place() {
        let first = Stream::default().entry("P", None, &[NUMBER]).0.len();
        let whole = book().0;
        for end in 0..=whole.len() {
            let wanted = match end {
                0 => None,
                _ if end == first || end == whole.len() => None,
                _ if end < first => Some((22, 0)),
                _ => Some((22, first)),
            };
            assert_eq!(refusal_of(&whole[..end]), wanted, "{end}");
        }
    }

    #[test]
    fn types_and_codes_of_members() {
        for type_byte in 0..=255 {
            for code in 0..=255 {
                let with_code: Member = ("a", type_byte, &[code]);
                let without: Member = ("a", type_byte, &[]);
                let has_code = matches!(type_byte, 0 | 7);
                let member = if has_code { with_code } else { without };
                let bad_type = matches!(type_byte, 3 | 4 | 8..);
                let bad_code = has_code && matches!(code, 0 | 4 | 17..);
                let refused = refusal_of(&Stream::default().entry("P", None, &[member]).0);
                assert_eq!(refused, (bad_type || bad_code).then_some((22, 0)));
            }
        }
    }

    /// The stream limit comes first, then the whole book, then the stream.
    #[test]
    fn between_1_and_2() {
        let (bad, mut table) = (book().bytes(&[9]).0, [7; 8]);
        let mut answer = |stream: &[u8], setting: Setting| {
            let refusal = read(stream, &mut table, setting.with(&bad)).unwrap_err();
            assert_eq!(table, [0; 8]);
            table = [7; 8];
            (refusal.number, refusal.place)
        };
        for setting in Setting::BOTH {
            assert_eq!(answer(&vec![0; STREAM_LIMIT + 1], setting), (1, 0));
            assert_eq!(answer(&vec![18; STREAM_LIMIT], setting), (22, bad.len() - 1));
            assert_eq!(answer(&[], setting), (22, bad.len() - 1));
        }
    }

    #[test]
    fn rows_of_untyped_classes() {
        if !UNTYPED_TAKEN {
            return;
        }
        let stream = Stream::new()
            .untyped_system(1, "P", &["a"])
            .int(5)
            .library(4, "L")
            .untyped(2, "P", &["b"], 4)
            .null()
            .by_id(3, 2)
            .string(6, "A")
            .by_id(7, 1)
            .int(5)
            .end();
        let mut table = [0; 11 * 8];
        assert_eq!(read(&stream.0, &mut table, Strict.with(&book().0)), Ok(11));
        let rows: [u32; 88] = [
            0, 0, 17, 1, 0, 0, 2, 0, //
            2, 17, 30, 1, 0, 0, 0, 1, //
            32, 30, 34, 0, 2, 0, 0, 0, //
            12, 34, 41, 4, 0, 0, 0, 0, //
            3, 41, 58, 2, 0, 0, 0, 1, //
            10, 58, 59, 0, 5, 0, 0, 1, //
            1, 59, 68, 3, 0, 0, 5, 1, //
            6, 68, 75, 6, 7, 0, 0, 0, //
            1, 75, 84, 7, 0, 0, 2, 1, //
            32, 84, 88, 0, 9, 0, 0, 0, //
            11, 88, 89, 0, 0, 0, 0, 0,
        ];
        assert_eq!(table, rows);
    }

    /// Each list is read with its own book; the typed one needs none.
    #[test]
    fn typed_and_untyped_lists_say_the_same() {
        let bytes = book().0;
        let typed = Stream::new().system(1, "P", &[NUMBER]).int(5).by_id(2, 1).int(6).end().0;
        let start = Stream::rooted(9).untyped_system(9, "P", &["a"]).int(5);
        let untyped = start.untyped_system(8, "P", &["a"]).int(6).end().0;
        let lists = [&typed[..], &untyped[..]];
        for [a, b] in Setting::BOTH.map(|a| Setting::BOTH.map(|b| [a, b])).concat() {
            assert_eq!(same(lists, [a.into(), b.with(&bytes)]), UNTYPED_TAKEN);
            assert_eq!(same(lists, [a.with(&bytes), b.with(&bytes)]), UNTYPED_TAKEN);
            assert!(!same(lists, [a.with(&bytes), b.into()]));
        }
        let other = Stream::default().entry("P", None, &[("a", 0, &[15])]).0;
        assert!(!same(lists, [Strict.into(), Lenient.with(&other)]));
        assert!(!same([&untyped, &untyped], [Strict.with(&bytes), Strict.with(&other)]));
        assert_eq!(same([&untyped; 2], [Strict.with(&other); 2]), UNTYPED_TAKEN);
    }
}
