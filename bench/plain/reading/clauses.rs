//! Route maps and their clauses.

use super::lists::{communities, CommunityLists, PrefixLists};
use super::names::NameTable;
use super::words::Words;
use super::Ownership;
use crate::index_table::{mix, IndexTable};
use crate::model::{Clause, RouteMap, Sets, Span};

const LAST_CLAUSE: u64 = 65535;
const MOST_PREPENDED: usize = 10;

#[derive(Default)]
pub struct Clauses {
    map_names: NameTable,
    /// Each clause, and the number of its map's name.
    clauses: Vec<(u32, Clause)>,
    table: IndexTable,
}

impl Clauses {
    pub fn map_number(&mut self, text: &[u8], name: Span) -> u32 {
        self.map_names.number(text, name)
    }

    /// A clause's header behind these words: its clause.
    pub fn header(&mut self, words: &mut Words, lines: &mut Ownership) -> Option<u32> {
        let name = words.next_span()?;
        let permit = match words.next()? {
            b"permit" => true,
            b"deny" => false,
            _ => return None,
        };
        let number = words.number(0, LAST_CLAUSE)?;
        words.end()?;
        let map = self.map_number(words.text, name);
        let Clauses { clauses, table, .. } = self;
        let (new, hash) = (clauses.len() as u32, |map: u32, number: u32| mix(map as u64, number as u64));
        let is_same = |k: u32| clauses[k as usize].0 == map && clauses[k as usize].1.number == number;
        let found = table.find_or_insert(hash(map, number), new, is_same, |k| hash(clauses[k as usize].0, clauses[k as usize].1.number));
        if found == new {
            let clause = Clause { number, permit, element: lines.begin(), prefix_lists: Vec::new(), community_lists: Vec::new(), sets: Sets::default() };
            clauses.push((map, clause));
        } else {
            let clause = &mut clauses[found as usize].1;
            clause.permit = permit;
            lines.go_on(clause.element);
        }
        Some(found)
    }

    /// A line of a clause's block; None where it isn't served.
    pub fn in_clause(&mut self, clause: u32, words: &mut Words, prefix_lists: &mut PrefixLists, community_lists: &mut CommunityLists, lines: &mut Ownership) -> Option<()> {
        let clause = &mut self.clauses[clause as usize].1;
        match words.next()? {
            b"match" if words.take(b"community") => {
                let before = clause.community_lists.len();
                while let Some(name) = words.next_span() {
                    clause.community_lists.push(community_lists.number(words.text, name));
                    (words.bytes(name) != b"exact-match").then_some(())?;
                }
                (clause.community_lists.len() > before).then_some(())?;
            }
            b"match" if words.take(b"ip") && words.take(b"address") && words.take(b"prefix-list") => {
                let before = clause.prefix_lists.len();
                while let Some(name) = words.next_span() {
                    clause.prefix_lists.push(prefix_lists.number(words.text, name));
                }
                (clause.prefix_lists.len() > before).then_some(())?;
            }
            b"set" => set(&mut clause.sets, words)?,
            b"match" | b"continue" => return None,
            _ => return Some(()),
        }
        lines.go_on(clause.element);
        Some(())
    }

    /// Which maps have a clause; one without is only named.
    pub fn defined(&self) -> Vec<bool> {
        let mut defined = vec![false; self.map_names.count()];
        for &(map, _) in &self.clauses {
            defined[map as usize] = true;
        }
        defined
    }

    /// The maps by number, their clauses in order; None where a clause names a list that has no entry.
    pub fn into_maps(self, prefix_lists: &PrefixLists, community_lists: &CommunityLists) -> Option<Vec<RouteMap>> {
        let mut maps: Vec<RouteMap> = (0..self.map_names.count()).map(|_| RouteMap::default()).collect();
        for (map, clause) in self.clauses {
            let defined = clause.prefix_lists.iter().all(|&list| prefix_lists.is_defined(list));
            if !defined || !clause.community_lists.iter().all(|&list| community_lists.is_defined(list)) {
                return None;
            }
            maps[map as usize].clauses.push(clause);
        }
        for map in &mut maps {
            map.clauses.sort_by_key(|clause| clause.number);
        }
        Some(maps)
    }
}

fn set(sets: &mut Sets, words: &mut Words) -> Option<()> {
    match words.next()? {
        b"local-preference" => sets.preference = Some(words.number(0, u32::MAX as u64)?),
        b"metric" => sets.metric = Some(words.number(0, u32::MAX as u64)?),
        b"origin" => match words.next()? {
            b"igp" => sets.origin = Some(0),
            b"incomplete" => sets.origin = Some(1),
            _ => return None,
        },
        b"as-path" if words.take(b"prepend") => {
            let mut prepend = vec![words.number(1, u32::MAX as u64)?];
            while words.clone().next().is_some() {
                prepend.push(words.number(1, u32::MAX as u64)?);
            }
            (prepend.len() <= MOST_PREPENDED).then_some(())?;
            sets.prepend = prepend;
        }
        b"community" => {
            let mut given: Vec<&[u8]> = words.by_ref().collect();
            let additive = given.last() == Some(&b"additive".as_slice());
            if additive {
                given.pop();
            }
            sets.communities = Some((communities(given.into_iter())?, additive));
        }
        _ => return None,
    }
    words.end()
}
