//! Names in a file: each has a number, in order of first mention.

use super::words::eight_at;
use crate::index_table::{mix, IndexTable};
use crate::model::Span;

#[derive(Default)]
pub struct NameTable {
    names: Vec<Name>,
    table: IndexTable,
    /// The number that was given last: lines about one name mostly stand together, and are told quickly if it is short.
    last: u32,
}

/// A name, and its first eight bytes, zeros behind a shorter one.
#[derive(Clone, Copy)]
struct Name {
    span: Span,
    head: u64,
}

const HEAD: usize = 8;

impl Name {
    #[inline]
    fn at(text: &[u8], span: Span) -> Self {
        Name { span, head: head_of(text, span.start as usize, span.end as usize) }
    }

    #[inline]
    fn length(self) -> usize {
        (self.span.end - self.span.start) as usize
    }

    #[inline]
    fn bytes(self, text: &[u8]) -> &[u8] {
        &text[self.span.start as usize..self.span.end as usize]
    }

    #[inline]
    fn hash(self, text: &[u8]) -> u64 {
        let (mut at, end) = (self.span.start as usize, self.span.end as usize);
        let mut hash = mix(0, self.head);
        while end - at > HEAD {
            at += HEAD;
            hash = mix(hash, head_of(text, at, end));
        }
        hash
    }

    #[inline]
    fn is(self, other: Name, text: &[u8]) -> bool {
        let alike = self.head == other.head && self.length() == other.length();
        alike && (self.length() <= HEAD || self.bytes(text) == other.bytes(text))
    }
}

/// The first eight bytes of a piece that isn't empty.
#[inline]
fn head_of(text: &[u8], start: usize, end: usize) -> u64 {
    let head = eight_at(text, start);
    match end - start < HEAD {
        true => head & ((1 << (8 * (end - start))) - 1),
        false => head,
    }
}

impl NameTable {
    /// The number of a name, which isn't empty.
    #[inline]
    pub fn number(&mut self, text: &[u8], span: Span) -> u32 {
        let NameTable { names, table, last } = self;
        let (new, name) = (names.len() as u32, Name::at(text, span));
        let is_last = |known: &Name| known.head == name.head && known.length() == name.length();
        if name.length() <= HEAD && names.get(*last as usize).is_some_and(is_last) {
            return *last;
        }
        let found = table.find_or_insert(name.hash(text), new, |k| names[k as usize].is(name, text), |k| names[k as usize].hash(text));
        if found == new {
            names.push(name);
        }
        *last = found;
        found
    }

    pub fn count(&self) -> usize {
        self.names.len()
    }
}
