//! A hash table of numbers: the things themselves stand elsewhere, in a list, and the table finds the place of one of them.

use std::collections::HashMap;
use std::hash::{BuildHasherDefault, Hasher};

/// A map of small keys of numbers, quickly hashed.
pub type QuickMap<Key, Value> = HashMap<Key, Value, BuildHasherDefault<QuickHasher>>;

#[derive(Default)]
pub struct QuickHasher {
    hash: u64,
}

impl Hasher for QuickHasher {
    fn write(&mut self, bytes: &[u8]) {
        for &byte in bytes {
            self.write_u32(byte as u32);
        }
    }

    #[inline]
    fn write_u32(&mut self, number: u32) {
        self.hash = mix(self.hash, number as u64);
    }

    #[inline]
    fn finish(&self) -> u64 {
        self.hash
    }
}

/// Open addressing over a power of two of slots, each the number of a thing, or `EMPTY`.
#[derive(Default)]
pub struct IndexTable {
    slots: Vec<u32>,
    count: usize,
}

const EMPTY: u32 = u32::MAX;
const FIRST_SLOTS: usize = 16;
const GROWTH: usize = 4;

/// Two words mixed to a hash, whose high bits are the best ones.
#[inline]
pub fn mix(first: u64, second: u64) -> u64 {
    let product = (first ^ 0x9e37_79b9_7f4a_7c15).wrapping_mul(0xd6e8_feb8_6659_fd93) ^ second;
    (product ^ (product >> 32)).wrapping_mul(0x9e37_79b9_7f4a_7c15)
}

impl IndexTable {
    /// The number of the thing with this hash for which `is_same` holds; without one, `new` is entered as its number and given.
    /// `hash_of` tells the hash of a thing that was entered before.
    #[inline]
    pub fn find_or_insert(&mut self, hash: u64, new: u32, is_same: impl Fn(u32) -> bool, hash_of: impl Fn(u32) -> u64) -> u32 {
        if (self.count + 1) * 2 > self.slots.len() {
            self.grow(hash_of);
        }
        let mut slot = self.first_slot(hash);
        loop {
            let found = self.slots[slot];
            if found == EMPTY {
                self.slots[slot] = new;
                self.count += 1;
                return new;
            }
            if is_same(found) {
                return found;
            }
            slot = (slot + 1) & (self.slots.len() - 1);
        }
    }

    /// The number of the thing with this hash for which `is_same` holds.
    #[inline]
    pub fn find(&self, hash: u64, is_same: impl Fn(u32) -> bool) -> Option<u32> {
        if self.slots.is_empty() {
            return None;
        }
        let mut slot = self.first_slot(hash);
        loop {
            let found = self.slots[slot];
            if found == EMPTY {
                return None;
            }
            if is_same(found) {
                return Some(found);
            }
            slot = (slot + 1) & (self.slots.len() - 1);
        }
    }

    #[inline]
    fn first_slot(&self, hash: u64) -> usize {
        (hash >> 32) as usize & (self.slots.len() - 1)
    }

    #[cold]
    fn grow(&mut self, hash_of: impl Fn(u32) -> u64) {
        let size = (self.slots.len() * GROWTH).max(FIRST_SLOTS);
        let old = std::mem::replace(&mut self.slots, vec![EMPTY; size]);
        for index in old.into_iter().filter(|&index| index != EMPTY) {
            let mut slot = self.first_slot(hash_of(index));
            while self.slots[slot] != EMPTY {
                slot = (slot + 1) & (size - 1);
            }
            self.slots[slot] = index;
        }
    }
}
