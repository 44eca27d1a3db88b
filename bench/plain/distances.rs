//! How many steps over base tables lead from a router to an address: a table for each address, made as far as it is asked.

use crate::index_table::QuickMap;
use crate::model::{Network, NONE};

const NO_WAY: u8 = u8::MAX;

/// The tables by address.
#[derive(Default)]
pub struct Distances {
    tables: QuickMap<u32, ToAddress>,
}

/// The steps to one address from the routers that were asked, and from all to which they lead.
pub struct ToAddress {
    address: u32,
    steps: Vec<u8>,
    seen: Vec<bool>,
}

impl ToAddress {
    /// The steps from a router that was seen; NONE if there is no way.
    #[inline]
    pub fn of(&self, router: u32) -> u32 {
        match self.steps[router as usize] {
            NO_WAY => NONE,
            steps => steps as u32,
        }
    }
}

impl Distances {
    /// The table of an address, complete for a router and all to which it leads.
    pub fn to(&mut self, network: &Network, address: u32, router: u32) -> &ToAddress {
        let count = network.routers.len();
        let table = self.tables.entry(address).or_insert_with(|| ToAddress { address, steps: vec![NO_WAY; count], seen: vec![false; count] });
        if !table.seen[router as usize] {
            table.extend(network, router);
        }
        table
    }

    /// The steps from a router to the owner of an address; NONE if there is no way.
    pub fn reach(&mut self, network: &Network, address: u32, router: u32) -> u32 {
        self.to(network, address, router).of(router)
    }
}

impl ToAddress {
    /// Adds a router and all to which it leads. What was seen before leads only to what was seen, so its steps stand.
    fn extend(&mut self, network: &Network, router: u32) {
        let mut ways: Vec<(u32, u32)> = Vec::new();
        let mut levels: Vec<Vec<u32>> = vec![Vec::new()];
        let mut found = vec![router];
        self.seen[router as usize] = true;
        while let Some(here) = found.pop() {
            if network.owner(self.address).is_some_and(|place| place.router == here) {
                levels[0].push(here);
                continue;
            }
            for row in network.base_longest(here, self.address) {
                let row = &network.base[row as usize];
                let Some(next) = (if row.discards() { None } else { network.leads(here, row, self.address) }) else {
                    continue;
                };
                let next = next.router;
                if !self.seen[next as usize] {
                    self.seen[next as usize] = true;
                    found.push(next);
                }
                match self.steps[next as usize] {
                    NO_WAY => ways.push((next, here)),
                    steps => put(&mut levels, steps as usize + 1, here),
                }
            }
        }
        self.fill(ways, levels);
    }

    /// Gives the new routers their steps, level by level, over the ways to them: (to which, from which).
    fn fill(&mut self, mut ways: Vec<(u32, u32)>, mut levels: Vec<Vec<u32>>) {
        ways.sort_unstable();
        let mut level = 0;
        while level < levels.len() {
            for here in std::mem::take(&mut levels[level]) {
                if self.steps[here as usize] != NO_WAY {
                    continue;
                }
                self.steps[here as usize] = level as u8;
                let start = ways.partition_point(|&(to, _)| to < here);
                for &(_, from) in ways[start..].iter().take_while(|&&(to, _)| to == here) {
                    put(&mut levels, level + 1, from);
                }
            }
            level += 1;
        }
    }
}

fn put(levels: &mut Vec<Vec<u32>>, level: usize, router: u32) {
    if levels.len() <= level {
        levels.resize_with(level + 1, Vec::new);
    }
    levels[level].push(router);
}
