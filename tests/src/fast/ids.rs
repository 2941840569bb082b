//! What each id names: a hash table of its own, as ids are looked up for every
//! object and reference.

/// What an id names, and the how manieth id of its table it is, from 1 on.
#[derive(Clone, Copy)]
pub struct Named {
    pub value: u32,
    pub number: u32,
}

/// Number 0 is a free place.
#[derive(Clone, Copy)]
struct Entry {
    id: i32,
    named: Named,
}

const FREE: Entry = Entry { id: 0, named: Named { value: 0, number: 0 } };

/// Always a power of two, of which at most half is used.
const FIRST_SIZE: usize = 64;

/// Times larger, each time.
const GROWTH: usize = 4;

/// 2^64 over the golden ratio.
const MIXER: u64 = 0x9E37_79B9_7F4A_7C15;

pub struct Ids {
    entries: Vec<Entry>,
    used: usize,
}

impl Ids {
    pub fn new() -> Ids {
        Ids { entries: vec![FREE; FIRST_SIZE], used: 0 }
    }

    /// The entry of an id, or the free one where it would stand. Ids mostly go
    /// up one by one, so the first try keeps neighbours together; the step of
    /// later tries is the id's own, so that no crowd is walked through.
    #[inline]
    fn place(&self, id: i32) -> usize {
        let mask = self.entries.len() - 1;
        let mut at = id as usize & mask;
        if self.ends_at(at, id) {
            return at;
        }
        let step = (u64::from(id as u32).wrapping_mul(MIXER) >> 32) as usize | 1;
        loop {
            at = (at + step) & mask;
            if self.ends_at(at, id) {
                return at;
            }
        }
    }

    #[inline]
    fn ends_at(&self, at: usize, id: i32) -> bool {
        let entry = &self.entries[at];
        entry.id == id || entry.named.number == 0
    }

    pub fn len(&self) -> usize {
        self.used
    }

    #[inline]
    pub fn get(&self, id: i32) -> Option<Named> {
        let named = self.entries[self.place(id)].named;
        (named.number > 0).then_some(named)
    }

    /// False where the id is there already.
    #[inline]
    pub fn insert(&mut self, id: i32, value: u32) -> bool {
        if 2 * self.used >= self.entries.len() {
            self.grow();
        }
        let at = self.place(id);
        let entry = &mut self.entries[at];
        if entry.named.number > 0 {
            return false;
        }
        self.used += 1;
        *entry = Entry { id, named: Named { value, number: self.used as u32 } };
        true
    }

    #[cold]
    fn grow(&mut self) {
        let larger = vec![FREE; GROWTH * self.entries.len()];
        let entries = std::mem::replace(&mut self.entries, larger);
        for entry in entries.into_iter().filter(|entry| entry.named.number > 0) {
            let at = self.place(entry.id);
            self.entries[at] = entry;
        }
    }
}
