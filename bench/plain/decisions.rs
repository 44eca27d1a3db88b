//! What prefix lists say of the prefixes of BGP: each list is gone through once, and decides each prefix once.

use crate::index_table::QuickMap;
use crate::model::*;

/// A set of prefixes of BGP.
#[derive(Clone)]
pub struct Bits {
    words: Vec<u64>,
}

impl Bits {
    fn empty(count: usize) -> Self {
        Bits { words: vec![0; count.div_ceil(64)] }
    }

    pub fn full(count: usize) -> Self {
        let mut bits = Bits { words: vec![!0; count.div_ceil(64)] };
        if count % 64 != 0 {
            bits.words[count / 64] = (1 << (count % 64)) - 1;
        }
        bits
    }

    pub fn is_empty(&self) -> bool {
        self.words.iter().all(|&word| word == 0)
    }

    #[inline]
    fn insert(&mut self, place: usize) {
        self.words[place / 64] |= 1 << (place % 64);
    }

    fn add(&mut self, other: &Bits) {
        self.words.iter_mut().zip(&other.words).for_each(|(word, &more)| *word |= more);
    }

    /// Takes out all that the other set has too, and tells each of them.
    pub fn take(&mut self, other: &Bits, mut tell: impl FnMut(usize)) {
        for (k, (word, &mask)) in self.words.iter_mut().zip(&other.words).enumerate() {
            let mut both = *word & mask;
            *word &= !mask;
            while both != 0 {
                tell(64 * k + both.trailing_zeros() as usize);
                both &= both - 1;
            }
        }
    }
}

/// From how many entries on the decisions of a list are kept.
const LONG_LIST: usize = 8;
const HALF: u32 = 16;

#[derive(Default)]
pub struct Decisions {
    prefixes: Vec<Prefix>,
    /// Where the prefixes begin whose address has this upper half; made when it is first wanted.
    starts: Vec<u16>,
    /// The entries that decide the prefixes, NONE where none does, by router and list, for long lists.
    kept: QuickMap<(u32, u32), Box<[u32]>>,
    /// What each list permits, by router and list.
    permitted: QuickMap<(u32, u32), Bits>,
}

impl Decisions {
    pub fn new(prefixes: &[Prefix]) -> Self {
        Decisions { prefixes: prefixes.to_vec(), ..Decisions::default() }
    }

    pub fn count(&self) -> usize {
        self.prefixes.len()
    }

    /// The prefixes that the prefix lists of a clause let through.
    pub fn through(&mut self, network: &Network, router: u32, clause: &Clause) -> Bits {
        if clause.prefix_lists.is_empty() {
            return Bits::full(self.count());
        }
        let mut through = Bits::empty(self.count());
        for &list in &clause.prefix_lists {
            self.add_permitted(network, router, list, &mut through);
        }
        through
    }

    /// Adds what a list permits.
    fn add_permitted(&mut self, network: &Network, router: u32, list: u32, through: &mut Bits) {
        if let Some(permitted) = self.permitted.get(&(router, list)) {
            through.add(permitted);
            return;
        }
        let entries = &network.routers[router as usize].prefix_lists[list as usize].entries;
        let decided = self.decide(entries);
        let mut permitted = Bits::empty(self.count());
        for (place, &number) in decided.iter().enumerate() {
            if entries.get(number as usize).is_some_and(|entry| entry.permit) {
                permitted.insert(place);
            }
        }
        if entries.len() > LONG_LIST {
            self.kept.insert((router, list), decided);
        }
        through.add(&permitted);
        self.permitted.insert((router, list), permitted);
    }

    /// For each prefix the first entry that is of it.
    fn decide(&mut self, entries: &[ListEntry]) -> Box<[u32]> {
        if self.starts.is_empty() {
            self.find_starts();
        }
        let mut decided = vec![NONE; self.count()].into_boxed_slice();
        let mut undecided: Vec<u32> = (0..=self.count() as u32).collect();
        for (number, entry) in (0..).zip(entries) {
            let half = (entry.address >> HALF) as usize;
            let (first, last) = match entry.length as u32 >= HALF {
                true => (self.starts[half] as usize, self.starts[half + 1] as usize),
                false => (0, self.count()),
            };
            if first < last {
                self.decide_within(first, last, number, entry, &mut decided, &mut undecided);
            }
        }
        decided
    }

    /// An entry decides those of the prefixes from `first` to `last` that it is of and that no earlier one decided.
    fn decide_within(&self, first: usize, last: usize, number: u32, entry: &ListEntry, decided: &mut [u32], undecided: &mut [u32]) {
        let mask = mask_of(entry.length);
        let mut place = first + self.prefixes[first..last].partition_point(|prefix| prefix.address < entry.address);
        loop {
            place = next_undecided(undecided, place);
            if place >= last || self.prefixes[place].address & mask != entry.address {
                return;
            }
            if (entry.low..=entry.high).contains(&self.prefixes[place].length) {
                decided[place] = number;
                undecided[place] = place as u32 + 1;
            }
            place += 1;
        }
    }

    fn find_starts(&mut self) {
        let mut starts = vec![0; (1 << HALF) + 1];
        for (place, prefix) in self.prefixes.iter().enumerate() {
            starts[(prefix.address >> HALF) as usize + 1] = place as u16 + 1;
        }
        let mut behind = 0;
        for start in &mut starts {
            behind = behind.max(*start);
            *start = behind;
        }
        self.starts = starts;
    }

    /// The entry of a list that decides a prefix.
    pub fn entry<'a>(&self, network: &'a Network, router: u32, list: u32, prefix: u32) -> Option<&'a ListEntry> {
        let entries = &network.routers[router as usize].prefix_lists[list as usize].entries;
        if let Some(decided) = self.kept.get(&(router, list)) {
            return entries.get(decided[prefix as usize] as usize);
        }
        let asked = self.prefixes[prefix as usize];
        let is_of = |entry: &&ListEntry| asked.address & mask_of(entry.length) == entry.address && (entry.low..=entry.high).contains(&asked.length);
        entries.iter().find(is_of)
    }
}

/// The first undecided place from `place` on; the places on the way are led there.
#[inline]
fn next_undecided(undecided: &mut [u32], place: usize) -> usize {
    let mut end = place;
    while undecided[end] as usize != end {
        end = undecided[end] as usize;
    }
    let mut here = place;
    while undecided[here] as usize != here {
        let next = undecided[here] as usize;
        undecided[here] = end as u32;
        here = next;
    }
    end
}
