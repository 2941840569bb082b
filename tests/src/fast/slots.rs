//! What may stand in a slot, and the innermost open object.

use crate::reader::{Reply, UNTYPED_TAKEN};

/// A slot takes a primitive value of a code, or records of the kinds whose bits
/// are set.
#[derive(Clone, Copy)]
pub enum Slot {
    Value(u8),
    Records(u32),
}

/// Places of the slot types that need no type byte.
pub const AT_TOP: usize = 0;
pub const AT_OBJECT: usize = 1;
pub const AT_STRING: usize = 2;

pub const START: u32 = bits(&[0]);
pub const TOP: Slot = Slot::Records(UNTYPED | bits(&[1, 4, 5, 6, 7, 11, 12, 15, 16, 17]));
pub const OBJECT: Slot = Slot::Records(UNTYPED | bits(&[1, 4, 5, 6, 8, 9, 10, 12, 13, 14]));
pub const STRING: Slot = Slot::Records(bits(&[6, 9, 10, 12, 13, 14]));
pub const ARRAY: Slot = Slot::Records(bits(&[9, 10, 12, 13, 14]));

/// Kinds that stand where 4 and 5 do.
const UNTYPED: u32 = if UNTYPED_TAKEN { bits(&[2, 3]) } else { 0 };

const fn bits(kinds: &[u8]) -> u32 {
    let (mut set, mut at) = (0, 0);
    while at < kinds.len() {
        set |= 1 << kinds[at];
        at += 1;
    }
    set
}

/// The kind, where it is among the kinds taken.
#[inline]
pub fn taken(kind: u8, kinds: u32) -> Result<u8, Reply> {
    if kind < 32 && kinds >> kind & 1 == 1 {
        return Ok(kind);
    }
    Err(match kind {
        21 | 22 => Reply::NotTaken,
        2 | 3 if !UNTYPED_TAKEN => Reply::NotTaken,
        0..=17 => Reply::WrongPlace,
        _ => Reply::UnknownKind,
    })
}

/// An open object, or the top level, which has one slot and never fills it.
#[derive(Clone, Copy)]
pub struct Frame {
    /// The object's row plus 1; 0 at top level.
    pub owner: u32,
    pub next: u32,
    pub count: u32,
    /// Where the types of the slots stand, and which bits of a slot's number
    /// count: none where all slots are of one type.
    pub types: usize,
    pub mask: u32,
    /// Slots that a record fills: 1, but 0 at top level.
    pub step: u32,
}

impl Frame {
    pub const TOP: Frame = Frame { owner: 0, next: 0, count: 1, types: AT_TOP, mask: 0, step: 0 };

    #[inline]
    pub fn next_type(&self) -> usize {
        self.types + (self.next & self.mask) as usize
    }
}

/// The slots of an object that a record opens.
#[derive(Clone, Copy)]
pub struct Opened {
    pub types: usize,
    pub mask: u32,
}

impl Opened {
    /// Types one after the other from this place on.
    pub fn members(types: usize) -> Opened {
        Opened { types, mask: u32::MAX }
    }

    /// All of the type at this place.
    pub fn items(types: usize) -> Opened {
        Opened { types, mask: 0 }
    }
}
