//! Names, found by a hash table.

use crate::answers::Refusal;
use crate::words::Word;

/// The key of an empty slot, which is no word's.
const EMPTY: u128 = 0;

#[derive(Clone, Copy)]
struct Slot {
    key: u128,
    place: usize,
}

/// Places by words. At least three slots in four are empty, and a word stands in the first
/// slot from its own one on that was empty.
#[derive(Clone)]
pub struct Table {
    slots: Vec<Slot>,
    shift: u32,
}

impl Table {
    pub fn new(most: usize) -> Table {
        let slots = (4 * most).next_power_of_two();
        Table { slots: vec![Slot { key: EMPTY, place: 0 }; slots], shift: 64 - slots.trailing_zeros() }
    }

    /// Names are few and chosen by the script's own author, so one multiplication does.
    #[inline]
    fn own_slot(&self, key: u128) -> usize {
        let folded = key as u64 ^ ((key >> 64) as u64).rotate_left(31);
        (folded.wrapping_mul(0x9E37_79B9_7F4A_7C15) >> self.shift) as usize
    }

    #[inline]
    fn after(&self, slot: usize) -> usize {
        (slot + 1) & (self.slots.len() - 1)
    }

    /// The slot of the key, or the empty one where it would stand.
    #[inline]
    fn slot(&self, key: u128) -> usize {
        let mut at = self.own_slot(key);
        while self.slots[at].key != key && self.slots[at].key != EMPTY {
            at = self.after(at);
        }
        at
    }

    #[inline]
    pub fn find(&self, word: Word) -> Option<usize> {
        let slot = self.slots[self.slot(word.key)];
        (slot.key != EMPTY).then_some(slot.place)
    }

    pub fn insert(&mut self, word: Word, place: usize) {
        let at = self.slot(word.key);
        self.slots[at] = Slot { key: word.key, place };
    }

    /// Takes out a word that is there, and moves up those that it held back.
    pub fn remove(&mut self, word: Word) {
        let mask = self.slots.len() - 1;
        let mut hole = self.slot(word.key);
        let mut at = self.after(hole);
        while self.slots[at].key != EMPTY {
            let own = self.own_slot(self.slots[at].key);
            if at.wrapping_sub(own) & mask >= at.wrapping_sub(hole) & mask {
                self.slots[hole] = self.slots[at];
                hole = at;
            }
            at = self.after(at);
        }
        self.slots[hole].key = EMPTY;
    }
}

/// Names in the order in which they were declared.
#[derive(Clone)]
pub struct Names {
    table: Table,
    words: Vec<Word>,
    most: usize,
}

impl Names {
    pub fn new(most: usize) -> Names {
        Names { table: Table::new(most), words: Vec::new(), most }
    }

    pub fn len(&self) -> usize {
        self.words.len()
    }

    pub fn is_full(&self) -> bool {
        self.words.len() == self.most
    }

    pub fn words(&self) -> &[Word] {
        &self.words
    }

    #[inline]
    pub fn find(&self, word: Word) -> Option<usize> {
        self.table.find(word)
    }

    /// Refuses what cannot be declared as a new name, however many there are.
    pub fn judge(&self, word: Word) -> Result<(), Refusal> {
        Refusal::BadName.when(!word.is_name())?;
        match self.find(word) {
            Some(_) => Err(Refusal::NameTaken),
            None => Ok(()),
        }
    }

    pub fn add(&mut self, word: Word) {
        self.table.insert(word, self.words.len());
        self.words.push(word);
    }
}
