//! Reduced ordered decision diagrams: which sets of elements fulfil a formula. One store holds the diagrams of a whole
//! session, so that equal ones have equal numbers. All formulas here are monotone: more elements never fulfil less.

/// The diagram that no set fulfils.
pub const FALSE: u32 = 0;
/// The diagram that each set fulfils.
pub const TRUE: u32 = 1;
/// What is given for a diagram where the store has no room for it.
pub const FULL: u32 = u32::MAX;

const MOST_DECISIONS: usize = 1 << 20;
const FIRST_BUCKETS: usize = 1 << 8;
const MOST_BUCKETS: usize = 1 << 20;
const FIRST_PAIRS: usize = 1 << 10;
const MOST_PAIRS: usize = 1 << 18;
const NO_ELEMENT: u32 = u32::MAX;
/// The number of no decision: that of a constant, which stands in no bucket.
const NONE: u32 = 0;
const BESIDE: u32 = 1 << 31;

/// A decision by an element: the diagrams of the rest without it and with it. The two constants have no element.
#[derive(Clone, Copy)]
struct Decision {
    element: u32,
    without: u32,
    with: u32,
    /// The next decision in the same bucket.
    next: u32,
}

/// A pair of diagrams that was worked out, and what it made: conjunctions have the lower number first, disjunctions the
/// higher one. With `BESIDE` at the first, each set that fulfils the one fulfils the other.
type Worked = [u32; 3];

/// A store of diagrams.
pub struct Diagrams {
    decisions: Vec<Decision>,
    buckets: Vec<u32>,
    /// What was worked out, each pair in the one place that it may have; a later pair takes the place of an earlier one.
    pairs: Vec<Worked>,
    /// How many pairs have lost their place since there were so many places.
    displaced: usize,
    bucket_shift: u32,
    pair_shift: u32,
}

#[inline]
fn mixed(first: u32, second: u32) -> u64 {
    ((first as u64) << 32 | second as u64).wrapping_mul(0x9e37_79b9_7f4a_7c15)
}

impl Diagrams {
    pub fn new() -> Diagrams {
        let constant = Decision { element: NO_ELEMENT, without: NONE, with: NONE, next: NONE };
        let mut decisions = Vec::with_capacity(MOST_DECISIONS + 2);
        decisions.extend([constant; 2]);
        Diagrams {
            decisions,
            buckets: vec![NONE; FIRST_BUCKETS],
            pairs: vec![[0; 3]; FIRST_PAIRS],
            displaced: 0,
            bucket_shift: 64 - FIRST_BUCKETS.trailing_zeros(),
            pair_shift: 64 - FIRST_PAIRS.trailing_zeros(),
        }
    }

    /// How many diagrams there are.
    pub fn len(&self) -> usize {
        self.decisions.len()
    }

    /// The sets that have all of these elements, which ascend.
    pub fn all_of(&mut self, elements: &[u32]) -> u32 {
        let mut made = TRUE;
        for &element in elements.iter().rev() {
            made = self.decide(element, FALSE, made);
            if made == FULL {
                return FULL;
            }
        }
        made
    }

    /// The sets that fulfil both.
    #[inline]
    pub fn both(&mut self, one: u32, other: u32) -> u32 {
        self.combine::<false>(one, other)
    }

    /// The sets that fulfil one of the two.
    #[inline]
    pub fn either(&mut self, one: u32, other: u32) -> u32 {
        self.combine::<true>(one, other)
    }

    #[inline]
    fn combine<const EITHER: bool>(&mut self, one: u32, other: u32) -> u32 {
        let (low, high) = if one < other { (one, other) } else { (other, one) };
        if low <= TRUE {
            return if (low == TRUE) == EITHER { low } else { high };
        }
        if low == high {
            return low;
        }
        self.combine_decisions::<EITHER>(low, high)
    }

    fn combine_decisions<const EITHER: bool>(&mut self, low: u32, high: u32) -> u32 {
        let (first, second) = if EITHER { (high, low) } else { (low, high) };
        if let Some(made) = self.worked(first, second) {
            return made;
        }
        let (one, other) = (self.decisions[low as usize], self.decisions[high as usize]);
        let element = one.element.min(other.element);
        let (low_without, low_with) = if one.element == element { (one.without, one.with) } else { (low, low) };
        let (high_without, high_with) = if other.element == element { (other.without, other.with) } else { (high, high) };
        let without = self.combine::<EITHER>(low_without, high_without);
        let with = if without == FULL { FULL } else { self.combine::<EITHER>(low_with, high_with) };
        if with == FULL {
            return FULL;
        }
        let made = self.decide(element, without, with);
        if made != FULL {
            self.keep(first, second, made);
        }
        made
    }

    #[inline]
    fn place_of(&self, first: u32, second: u32) -> usize {
        (mixed(first, second) >> self.pair_shift) as usize
    }

    #[inline]
    fn worked(&self, first: u32, second: u32) -> Option<u32> {
        let [one, other, made] = self.pairs[self.place_of(first, second)];
        (one == first && other == second).then_some(made)
    }

    #[inline]
    fn keep(&mut self, first: u32, second: u32, made: u32) {
        let place = self.place_of(first, second);
        let old = std::mem::replace(&mut self.pairs[place], [first, second, made]);
        self.displaced += (old[1] != 0) as usize;
        if self.displaced > self.pairs.len() / 2 {
            self.grow_pairs();
        }
    }

    #[cold]
    fn grow_pairs(&mut self) {
        self.displaced = 0;
        if self.pairs.len() == MOST_PAIRS {
            return;
        }
        let size = self.pairs.len() * 2;
        let old = std::mem::replace(&mut self.pairs, vec![[0; 3]; size]);
        self.pair_shift = 64 - size.trailing_zeros();
        for worked in old.into_iter().filter(|worked| worked[1] != 0) {
            let place = self.place_of(worked[0], worked[1]);
            self.pairs[place] = worked;
        }
    }

    #[inline]
    fn bucket(&self, element: u32, without: u32, with: u32) -> usize {
        let hash = mixed(without, with).wrapping_add((element as u64).wrapping_mul(0xd6e8_feb8_6659_fd93));
        (hash >> self.bucket_shift) as usize
    }

    /// The diagram that decides by an element, which stands before those of both others.
    #[inline]
    fn decide(&mut self, element: u32, without: u32, with: u32) -> u32 {
        if without == with {
            return with;
        }
        let bucket = self.bucket(element, without, with);
        let mut number = self.buckets[bucket];
        while number != NONE {
            let found = &self.decisions[number as usize];
            if found.with == with && found.without == without && found.element == element {
                return number;
            }
            number = found.next;
        }
        self.enter(bucket, element, without, with)
    }

    #[inline]
    fn enter(&mut self, bucket: usize, element: u32, without: u32, with: u32) -> u32 {
        let number = self.decisions.len();
        if number >= MOST_DECISIONS + 2 {
            return FULL;
        }
        self.decisions.push(Decision { element, without, with, next: self.buckets[bucket] });
        self.buckets[bucket] = number as u32;
        if number >= self.buckets.len() && number < MOST_BUCKETS {
            self.fill_buckets(self.buckets.len() * 4);
        }
        number as u32
    }

    #[cold]
    fn fill_buckets(&mut self, size: usize) {
        self.buckets = vec![NONE; size];
        self.bucket_shift = 64 - size.trailing_zeros();
        for number in 2..self.decisions.len() {
            let Decision { element, without, with, .. } = self.decisions[number];
            let bucket = self.bucket(element, without, with);
            self.decisions[number].next = std::mem::replace(&mut self.buckets[bucket], number as u32);
        }
    }

    /// Takes back all diagrams but the first ones, of which there are `count`.
    pub fn cut_back(&mut self, count: usize) {
        self.decisions.truncate(count);
        self.fill_buckets(self.buckets.len());
        self.pairs.fill([0; 3]);
    }

    /// The greatest set that fulfils the one diagram and not the other, by the elements that it lacks, in order: of two
    /// sets the greater has the first element in which they differ.
    pub fn greatest_between(&mut self, one: u32, other: u32) -> Option<Vec<u32>> {
        let mut lacked = Vec::new();
        self.goes_beyond(one, other, &mut lacked).then_some(lacked)
    }

    fn goes_beyond(&mut self, one: u32, other: u32, lacked: &mut Vec<u32>) -> bool {
        if one == FALSE || other == TRUE || one == other {
            return false;
        }
        if other == FALSE {
            return true;
        }
        if self.worked(one | BESIDE, other).is_some() {
            return false;
        }
        let (this, that) = (self.decisions[one as usize], self.decisions[other as usize]);
        let element = this.element.min(that.element);
        let (one_without, one_with) = if this.element == element { (this.without, this.with) } else { (one, one) };
        let (other_without, other_with) = if that.element == element { (that.without, that.with) } else { (other, other) };
        if self.goes_beyond(one_with, other_with, lacked) {
            return true;
        }
        lacked.push(element);
        if self.goes_beyond(one_without, other_without, lacked) {
            return true;
        }
        lacked.pop();
        self.keep(one | BESIDE, other, TRUE);
        false
    }
}
