//! Route maps by what they do to the prefixes of BGP: for each map in use the clause that decides each prefix, worked out
//! clause by clause for all prefixes at once, and anew for each set of communities where clauses ask for communities.

use crate::decisions::{Bits, Decisions};
use crate::index_table::QuickMap;
use crate::model::*;
use crate::paths::{CommunitySets, Paths};

const LONGEST_PATH: usize = 250;
const MOST_COMMUNITIES: usize = 64;
/// The verdict on what no clause lets pass.
pub const DENIED: u16 = u16::MAX;

/// A route map of a router that a session uses.
struct Policy {
    router: u32,
    map: u32,
    /// The prefixes that the prefix lists of each clause let through.
    through: Vec<Bits>,
    asks_communities: bool,
    /// The highest preference that a clause sets.
    preference: u32,
    /// The set of communities that each clause sets.
    communities: Vec<u32>,
    /// The verdicts on all prefixes: one table, or one for each set of communities that came.
    verdicts: Vec<Option<Box<[u16]>>>,
}

#[derive(Default)]
pub struct Policies {
    policies: Vec<Policy>,
    numbers: QuickMap<(u32, u32), u32>,
    decisions: Decisions,
}

impl Policies {
    pub fn new(prefixes: &[Prefix]) -> Self {
        Policies { decisions: Decisions::new(prefixes), ..Policies::default() }
    }

    /// The number of a router's map among the maps in use; NONE of no map.
    pub fn number(&mut self, network: &Network, router: u32, map: u32, sets: &mut CommunitySets) -> u32 {
        if map == NONE {
            return NONE;
        }
        if let Some(&known) = self.numbers.get(&(router, map)) {
            return known;
        }
        let clauses = &network.routers[router as usize].maps[map as usize].clauses;
        let through = clauses.iter().map(|clause| self.decisions.through(network, router, clause)).collect();
        let preference = clauses.iter().filter_map(|clause| clause.sets.preference).max().unwrap_or(0);
        let communities = clauses.iter().map(|clause| clause.sets.communities.as_ref().map_or(0, |(members, _)| sets.number(members))).collect();
        let asks_communities = clauses.iter().any(|clause| !clause.community_lists.is_empty());
        let number = self.policies.len() as u32;
        self.policies.push(Policy { router, map, through, asks_communities, preference, communities, verdicts: Vec::new() });
        self.numbers.insert((router, map), number);
        number
    }

    /// The highest preference that a map sets; 0 of no map.
    pub fn preference(&self, policy: u32) -> u32 {
        self.policies.get(policy as usize).map_or(0, |policy| policy.preference)
    }

    /// Lets a route to a prefix pass by a map, with what its clause sets; false where it is denied.
    #[inline]
    pub fn pass(&mut self, network: &Network, policy: u32, prefix: u32, route: &mut Chosen, paths: &mut Paths, sets: &mut CommunitySets) -> bool {
        let policy = &mut self.policies[policy as usize];
        let table = if policy.asks_communities { route.communities as usize } else { 0 };
        if policy.verdicts.get(table).is_none_or(Option::is_none) {
            let verdicts = policy.worked_out(network, self.decisions.count(), sets.members(route.communities));
            if policy.verdicts.len() <= table {
                policy.verdicts.resize_with(table + 1, || None);
            }
            policy.verdicts[table] = Some(verdicts);
        }
        let verdict = policy.verdicts[table].as_ref().map_or(DENIED, |verdicts| verdicts[prefix as usize]);
        if verdict == DENIED {
            return false;
        }
        let clause = &network.routers[policy.router as usize].maps[policy.map as usize].clauses[verdict as usize];
        set(&clause.sets, policy.communities[verdict as usize], route, paths, sets)
    }

    /// The clause that lets a route to a prefix pass and its entries, where it is known that one does; with what it sets
    /// of communities.
    pub fn decided(&self, network: &Network, policy: u32, prefix: u32, communities: &mut Vec<u32>, sets: &CommunitySets) -> Option<Decided> {
        let policy = &self.policies[policy as usize];
        let table = if policy.asks_communities { sets.find(communities)? as usize } else { 0 };
        let verdict = policy.verdicts.get(table)?.as_ref()?[prefix as usize];
        let router = &network.routers[policy.router as usize];
        let clause = router.maps[policy.map as usize].clauses.get(verdict as usize)?;
        let permitting = |&list: &u32| self.decisions.entry(network, policy.router, list, prefix).filter(|entry| entry.permit);
        let prefix_entry = clause.prefix_lists.iter().find_map(permitting).map_or(NONE, |entry| entry.element);
        let permitting = |&list: &u32| deciding(&router.community_lists[list as usize], communities).filter(|entry| entry.permit);
        let community_entry = clause.community_lists.iter().find_map(permitting).map_or(NONE, |entry| entry.element);
        if let Some((members, added)) = &clause.sets.communities {
            if !added {
                communities.clear();
            }
            communities.extend(members);
            communities.sort_unstable();
            communities.dedup();
        }
        Some(Decided { clause: clause.element, prefix_entry, community_entry })
    }
}

impl Policy {
    /// The verdict on each prefix for a route with these communities.
    fn worked_out(&self, network: &Network, prefixes: usize, communities: &[u32]) -> Box<[u16]> {
        let router = &network.routers[self.router as usize];
        let mut verdicts = vec![DENIED; prefixes].into_boxed_slice();
        let mut left = Bits::full(prefixes);
        for (place, (clause, through)) in router.maps[self.map as usize].clauses.iter().zip(&self.through).enumerate() {
            let permits = |&list: &u32| deciding(&router.community_lists[list as usize], communities).is_some_and(|entry| entry.permit);
            if !clause.community_lists.is_empty() && !clause.community_lists.iter().any(permits) {
                continue;
            }
            let verdict = if clause.permit { place as u16 } else { DENIED };
            left.take(through, |prefix| verdicts[prefix] = verdict);
            if left.is_empty() {
                break;
            }
        }
        verdicts
    }
}

/// The first entry of a community list of which all communities are there; both are in order.
fn deciding<'a>(list: &'a CommunityList, communities: &[u32]) -> Option<&'a CommunityEntry> {
    let holds = |members: &[u32]| members.iter().all(|member| communities.binary_search(member).is_ok());
    list.entries.iter().find(|entry| holds(&entry.members))
}

/// What a clause sets; false where the route grows too long.
fn set(clause: &Sets, communities: u32, route: &mut Chosen, paths: &mut Paths, sets: &mut CommunitySets) -> bool {
    route.preference = clause.preference.unwrap_or(route.preference);
    route.metric = clause.metric.unwrap_or(route.metric);
    route.origin = clause.origin.unwrap_or(route.origin);
    if !clause.prepend.is_empty() {
        if route.path_length as usize + clause.prepend.len() > LONGEST_PATH {
            return false;
        }
        for &number in clause.prepend.iter().rev() {
            route.path = paths.prepend(number, route.path);
        }
        route.path_length += clause.prepend.len() as u8;
    }
    if let Some((_, added)) = clause.communities {
        route.communities = if added { sets.union(communities, route.communities) } else { communities };
    }
    sets.members(route.communities).len() <= MOST_COMMUNITIES
}
