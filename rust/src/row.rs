//! The rows of a table: eight words each.

/// How many words of the table a row takes.
pub const ROW_WORDS: usize = 8;

/// What a row shows: a record by its kind, or the value of a primitive class member.
#[derive(Clone, Copy, Debug, PartialEq, Eq, Hash)]
pub enum RowKind {
    /// 0: the header.
    Header,
    /// 1: an object whose class an earlier record has.
    ClassById,
    /// 4: an object with its system class.
    SystemClass,
    /// 5: an object with its class.
    Class,
    /// 6: a string.
    String,
    /// 7: a BinaryArray.
    BinaryArray,
    /// 8: a typed primitive.
    TypedPrimitive,
    /// 9: a reference.
    Reference,
    /// 10: one null.
    Null,
    /// 11: the end.
    End,
    /// 12: a library.
    Library,
    /// 13: a null run whose count is a byte.
    ShortNullRun,
    /// 14: a null run whose count is an INT32.
    LongNullRun,
    /// 15: a primitive array with its items.
    PrimitiveArray,
    /// 16: an object array.
    ObjectArray,
    /// 17: a string array.
    StringArray,
    /// 32: the value of a primitive class member.
    MemberValue,
    /// A kind word that no reading writes.
    Unknown(u32),
}

impl RowKind {
    /// The kind with this number; [`RowKind::Unknown`] where no row of a reading has it.
    pub fn from_number(number: u32) -> RowKind {
        match number {
            0 => RowKind::Header,
            1 => RowKind::ClassById,
            4 => RowKind::SystemClass,
            5 => RowKind::Class,
            6 => RowKind::String,
            7 => RowKind::BinaryArray,
            8 => RowKind::TypedPrimitive,
            9 => RowKind::Reference,
            10 => RowKind::Null,
            11 => RowKind::End,
            12 => RowKind::Library,
            13 => RowKind::ShortNullRun,
            14 => RowKind::LongNullRun,
            15 => RowKind::PrimitiveArray,
            16 => RowKind::ObjectArray,
            17 => RowKind::StringArray,
            32 => RowKind::MemberValue,
            _ => RowKind::Unknown(number),
        }
    }
}

/// A row of a table. The table may hold any words: a `Row` shows them and judges nothing.
#[derive(Clone, Copy, Debug, PartialEq, Eq, Hash)]
pub struct Row<'t> {
    words: &'t [u32; ROW_WORDS],
}

impl<'t> Row<'t> {
    /// The eight words as they stand.
    pub fn words(self) -> &'t [u32; ROW_WORDS] {
        self.words
    }

    /// What the row shows.
    pub fn kind(self) -> RowKind {
        RowKind::from_number(self.words[0])
    }

    /// The offset of its first byte in the stream.
    pub fn offset(self) -> usize {
        self.words[1] as usize
    }

    /// The offset after its own bytes.
    pub fn end(self) -> usize {
        self.words[2] as usize
    }

    /// ObjectId, LibraryId, IdRef or RootId as unsigned bits, else 0.
    pub fn id(self) -> u32 {
        self.words[3]
    }

    /// The number of the row of the object whose slot is filled.
    pub fn owner(self) -> Option<usize> {
        row_number(self.words[4])
    }

    /// The first slot filled.
    pub fn slot(self) -> u32 {
        self.words[5]
    }

    /// The row of the reference's target, of the kind 1 record's class, or of the header's root.
    pub fn link(self) -> Option<usize> {
        row_number(self.words[6])
    }

    /// Slots, members or run length; 1 for kind 10, else 0.
    pub fn count(self) -> u32 {
        self.words[7]
    }
}

/// The table has row numbers plus 1, and 0 for none.
fn row_number(word: u32) -> Option<usize> {
    word.checked_sub(1).map(|number| number as usize)
}

/// The rows of a table, in order. After a reading they are its rows, as many as it answered, and after a refusal there are none: every row has
/// at least a byte, so its end word is not 0, and the words after the last row are 0.
pub fn rows(table: &[u32]) -> impl Iterator<Item = Row<'_>> {
    table
        .chunks_exact(ROW_WORDS)
        .filter_map(|words| words.try_into().ok())
        .map(|words| Row { words })
        .take_while(|row| row.end() != 0)
}
