//! Tables: of rows by their hashes, of lists, and of the results of a fold. Nothing is removed from them.

use crate::types::{Info, Type};

pub fn pair(low: u32, high: u32) -> u64 {
    u64::from(low) | u64::from(high) << 32
}

/// A hash of words, each of which is multiplied into it, so that the upper half of the product reaches the lower one.
#[derive(Clone, Copy)]
pub struct Hash(pub u64);

impl Hash {
    pub const START: Hash = Hash(0x517c_c1b7_2722_0a95);

    pub fn and(self, word: u64) -> Hash {
        let product = u128::from(self.0 ^ word) * 0x9e37_79b9_7f4a_7c15;
        Hash(product as u64 ^ (product >> 64) as u64)
    }

    pub fn done(self) -> u32 {
        (self.0 >> 32) as u32
    }
}

/// What a list may hold.
pub trait Item: Copy + PartialEq {
    fn hashed(self, hash: Hash) -> Hash;
}

impl Item for Type {
    fn hashed(self, hash: Hash) -> Hash {
        hash.and(u64::from(self))
    }
}

/// The numbers of rows, by the hashes of what the rows hold. Nothing is removed. A slot is 0, or has the hash in its
/// upper half and one more than the row's number in its lower half.
pub struct Table {
    pub slots: Vec<u64>,
    /// How far a hash is shifted to give its first slot.
    pub shift: u32,
    pub count: usize,
}

impl Table {
    pub fn new() -> Table {
        Table { slots: vec![0; 16], shift: 28, count: 0 }
    }

    /// Returns the row with this hash that is the one, or the free slot where it would be.
    pub fn find(&self, hash: u32, is: impl Fn(u32) -> bool) -> Result<u32, usize> {
        let mask = self.slots.len() - 1;
        let mut at = (hash >> self.shift) as usize;
        loop {
            let slot = self.slots[at];
            if slot == 0 {
                return Err(at);
            }
            let row = (slot as u32).wrapping_sub(1);
            if (slot >> 32) as u32 == hash && is(row) {
                return Ok(row);
            }
            at = (at + 1) & mask;
        }
    }

    /// Fills the free slot.
    pub fn fill(&mut self, at: usize, hash: u32, row: u32) {
        self.slots[at] = pair(row + 1, hash);
        self.count += 1;
        if self.count * 4 > self.slots.len() * 3 {
            self.grow();
        }
    }

    #[cold]
    #[inline(never)]
    pub fn grow(&mut self) {
        let doubled = vec![0; self.slots.len() * 2];
        let old = std::mem::replace(&mut self.slots, doubled);
        self.shift -= 1;
        let mask = self.slots.len() - 1;
        for slot in old {
            if slot != 0 {
                let mut at = ((slot >> 32) as u32 >> self.shift) as usize;
                while self.slots[at] != 0 {
                    at = (at + 1) & mask;
                }
                self.slots[at] = slot;
            }
        }
    }
}

#[derive(Clone, Copy)]
pub struct ListRow {
    pub start: u32,
    pub length: u32,
    pub info: Info,
}

/// Lists, each of them once. The first one is empty.
pub struct Lists<T> {
    pub items: Vec<T>,
    pub rows: Vec<ListRow>,
    pub numbers: Table,
}

impl<T: Item> Lists<T> {
    pub fn new() -> Lists<T> {
        let mut lists = Lists { items: Vec::new(), rows: Vec::new(), numbers: Table::new() };
        lists.make(&[], |_| Info::default());
        lists
    }

    pub fn row(&self, list: u32) -> ListRow {
        self.rows[list as usize]
    }

    pub fn of(&self, row: ListRow) -> &[T] {
        &self.items[row.start as usize..][..row.length as usize]
    }

    /// Returns the list of these items, whose infos the function gives.
    pub fn make(&mut self, items: &[T], info: impl Fn(T) -> Info) -> u32 {
        let hash = items.iter().fold(Hash::START, |hash, item| item.hashed(hash)).done();
        let is = |row: u32| {
            let stored = self.of(self.rows[row as usize]);
            stored.len() == items.len() && stored.iter().zip(items).all(|(one, other)| one == other)
        };
        match self.numbers.find(hash, is) {
            Ok(row) => row,
            Err(slot) => {
                let row = self.rows.len() as u32;
                let (start, length) = (self.items.len() as u32, items.len() as u32);
                let info = items.iter().fold(Info::default(), |all, item| all.with(info(*item)));
                self.items.extend_from_slice(items);
                self.rows.push(ListRow { start, length, info });
                self.numbers.fill(slot, hash, row);
                row
            }
        }
    }
}

/// The results of a fold, by the type and the number of binders around it. A call's notes are gone when the next call
/// begins, since each has its call's number.
pub struct Notes {
    pub slots: Vec<Note>,
    pub call: u32,
    pub count: usize,
}

#[derive(Clone, Copy, Default)]
pub struct Note {
    pub ty: Type,
    pub depth: u32,
    pub result: Type,
    pub call: u32,
}

impl Notes {
    pub fn new() -> Notes {
        Notes { slots: vec![Note::default(); 64], call: 0, count: 0 }
    }

    pub fn begin(&mut self) {
        self.count = 0;
        self.call = self.call.wrapping_add(1);
        if self.call == 0 {
            self.slots.fill(Note::default());
            self.call = 1;
        }
    }

    /// Returns the slot of the type at this depth, which is its own or free.
    pub fn slot(&self, ty: Type, depth: u32) -> usize {
        let mask = self.slots.len() - 1;
        let mut at = Hash::START.and(pair(ty, depth)).done() as usize & mask;
        loop {
            let note = &self.slots[at];
            if note.call != self.call || (note.ty == ty && note.depth == depth) {
                return at;
            }
            at = (at + 1) & mask;
        }
    }

    pub fn find(&self, ty: Type, depth: u32) -> Option<Type> {
        let note = &self.slots[self.slot(ty, depth)];
        (note.call == self.call).then_some(note.result)
    }

    pub fn add(&mut self, ty: Type, depth: u32, result: Type) {
        let at = self.slot(ty, depth);
        self.slots[at] = Note { ty, depth, result, call: self.call };
        self.count += 1;
        if self.count * 2 > self.slots.len() {
            self.grow();
        }
    }

    #[cold]
    #[inline(never)]
    pub fn grow(&mut self) {
        let doubled = vec![Note::default(); self.slots.len() * 2];
        for note in std::mem::replace(&mut self.slots, doubled) {
            if note.call == self.call {
                let at = self.slot(note.ty, note.depth);
                self.slots[at] = note;
            }
        }
    }
}
