//! Paths of AS numbers and sets of communities: equal ones have equal numbers.

use crate::index_table::{mix, IndexTable, QuickMap};

/// The number of the path without any AS number.
pub const EMPTY_PATH: u32 = 0;
/// The number of the set without any community.
pub const NO_COMMUNITIES: u32 = 0;

const WORDS: usize = 4;

/// The place of an AS number of one of the routers in the sets of paths.
#[derive(Clone, Copy, Default)]
pub struct Bit {
    word: u8,
    mask: u64,
}

struct Path {
    head: u32,
    rest: u32,
    /// The numbers of routers' systems in it.
    systems: [u64; WORDS],
}

pub struct Paths {
    paths: Vec<Path>,
    table: IndexTable,
    bits: QuickMap<u32, Bit>,
    /// What was put before a path last: the number, the path and the outcome.
    last: (u32, u32, u32),
}

impl Default for Paths {
    fn default() -> Self {
        Paths::new(std::iter::empty())
    }
}

impl Paths {
    /// With these numbers of the routers' systems, of which there are at most 256 distinct ones.
    pub fn new(numbers: impl Iterator<Item = u32>) -> Self {
        let mut bits = QuickMap::default();
        for number in numbers {
            let place = bits.len();
            bits.entry(number).or_insert(Bit { word: (place / 64) as u8, mask: 1 << (place % 64) });
        }
        let empty = Path { head: 0, rest: EMPTY_PATH, systems: [0; WORDS] };
        Paths { paths: vec![empty], table: IndexTable::default(), bits, last: (0, 0, 0) }
    }

    pub fn bit(&self, number: u32) -> Bit {
        self.bits.get(&number).copied().unwrap_or_default()
    }

    #[inline]
    pub fn holds(&self, path: u32, bit: Bit) -> bool {
        self.paths[path as usize].systems[bit.word as usize & (WORDS - 1)] & bit.mask != 0
    }

    /// The path with a number before it.
    #[inline]
    pub fn prepend(&mut self, number: u32, path: u32) -> u32 {
        if (self.last.0, self.last.1) == (number, path) {
            return self.last.2;
        }
        let Paths { paths, table, .. } = self;
        let hash = |head: u32, rest: u32| mix(head as u64, rest as u64);
        let new = paths.len() as u32;
        let is_same = |k: u32| (paths[k as usize].head, paths[k as usize].rest) == (number, path);
        let found = table.find_or_insert(hash(number, path), new, is_same, |k| hash(paths[k as usize].head, paths[k as usize].rest));
        if found == new {
            self.add(number, path);
        }
        self.last = (number, path, found);
        found
    }

    fn add(&mut self, number: u32, path: u32) {
        let mut systems = self.paths[path as usize].systems;
        let bit = self.bit(number);
        systems[bit.word as usize] |= bit.mask;
        self.paths.push(Path { head: number, rest: path, systems });
    }
}

#[derive(Default)]
pub struct CommunitySets {
    /// All but the empty one, which has the number 0.
    sets: Vec<Vec<u32>>,
    table: IndexTable,
    unions: QuickMap<(u32, u32), u32>,
}

impl CommunitySets {
    /// The communities of a set, in order.
    pub fn members(&self, set: u32) -> &[u32] {
        match set {
            NO_COMMUNITIES => &[],
            _ => &self.sets[set as usize - 1],
        }
    }

    /// The number of a set of communities, which are in order.
    pub fn number(&mut self, members: &[u32]) -> u32 {
        if members.is_empty() {
            return NO_COMMUNITIES;
        }
        let CommunitySets { sets, table, .. } = self;
        let new = sets.len() as u32;
        let found = table.find_or_insert(hash_of(members), new, |k| sets[k as usize] == members, |k| hash_of(&sets[k as usize]));
        if found == new {
            sets.push(members.to_vec());
        }
        found + 1
    }

    /// The number of a set, if there is one.
    pub fn find(&self, members: &[u32]) -> Option<u32> {
        if members.is_empty() {
            return Some(NO_COMMUNITIES);
        }
        self.table.find(hash_of(members), |k| self.sets[k as usize] == members).map(|found| found + 1)
    }

    /// The number of both sets together.
    pub fn union(&mut self, one: u32, other: u32) -> u32 {
        if one == other || other == NO_COMMUNITIES {
            return one;
        }
        if let Some(&known) = self.unions.get(&(one, other)) {
            return known;
        }
        let mut members = [self.members(one), self.members(other)].concat();
        members.sort_unstable();
        members.dedup();
        let union = self.number(&members);
        self.unions.insert((one, other), union);
        union
    }
}

fn hash_of(members: &[u32]) -> u64 {
    members.iter().fold(0, |hash, &member| mix(hash, member as u64))
}
