//! Routes by BGP: rounds in which each router chooses anew, until nothing changes. A round looks only at the rows to which
//! a changed row is told; a message that can't win against the standing route is dropped before it is worked out.

use std::cmp::Ordering;

use crate::index_table::QuickMap;
use crate::links::{is_taken, links_of, Link};
use crate::model::*;
use crate::paths::{CommunitySets, Paths, EMPTY_PATH, NO_COMMUNITIES};
use crate::policy::Policies;

const LONGEST_PATH: u8 = 250;
const PLAIN_PREFERENCE: u32 = 100;

/// What has been chosen, by cell: the router's number times the prefixes, and the prefix's number.
#[derive(Default)]
pub struct Stable {
    cells: Vec<Option<Chosen>>,
    /// All routes of the cells that have several.
    several: QuickMap<u32, Vec<Chosen>>,
    pub links: Vec<Link>,
    pub communities: CommunitySets,
    pub policies: Policies,
}

impl Stable {
    /// What is chosen in a cell, best first.
    #[inline]
    pub fn chosen(&self, cell: usize) -> &[Chosen] {
        match &self.cells[cell] {
            Some(best) if best.several => &self.several[&(cell as u32)],
            best => best.as_slice(),
        }
    }
}

/// The routes that have settled within so many rounds; None if they don't.
pub fn settle(network: &Network, rounds: u32) -> Option<Stable> {
    let mut state = Rounds::new(network);
    let mut changed = state.begin();
    let mut done = 1;
    while state.anything_changed {
        if done == rounds {
            return None;
        }
        state.hear(&changed);
        changed.clear();
        state.finish(&mut changed);
        done += 1;
    }
    Some(state.stable)
}

/// A row that may change in this round.
struct Pending {
    cell: u32,
    /// Whether all that is sent has to be compared; else the best of what beats the standing route stands here.
    whole: bool,
    best: Option<Chosen>,
}

struct Rounds<'a> {
    network: &'a Network,
    prefixes: u32,
    stable: Stable,
    paths: Paths,
    /// The sessions by which each router sends; those by which it receives stand together in `links`.
    sending: Vec<Vec<u32>>,
    receiving: Vec<std::ops::Range<u32>>,
    pending: Vec<Pending>,
    /// The place of each cell among the pending ones.
    place: Vec<u32>,
    hops: QuickMap<(u32, u32), bool>,
    anything_changed: bool,
}

impl<'a> Rounds<'a> {
    fn new(network: &'a Network) -> Self {
        let count = network.prefixes.len();
        let cells = count * network.routers.len();
        let systems = network.routers.iter().filter_map(|router| router.process.as_ref()).map(|process| process.number);
        let paths = Paths::new(systems);
        let mut stable = Stable { policies: Policies::new(&network.prefixes), ..Stable::default() };
        if count > 0 {
            stable.links = links_of(network, &paths, &mut stable.policies, &mut stable.communities);
        }
        stable.cells = vec![None; cells];
        let mut sending = vec![Vec::new(); network.routers.len()];
        let mut receiving = vec![0..0; network.routers.len()];
        for (number, link) in (0..).zip(&stable.links) {
            sending[link.peer as usize].push(number);
            let range: &mut std::ops::Range<u32> = &mut receiving[link.router as usize];
            *range = if range.start == range.end { number..number + 1 } else { range.start..number + 1 };
        }
        Rounds {
            network,
            prefixes: count as u32,
            stable,
            paths,
            sending,
            receiving,
            pending: Vec::new(),
            place: vec![NONE; cells],
            hops: QuickMap::default(),
            anything_changed: false,
        }
    }

    /// The first round: what the routers begin themselves. Gives the cells.
    fn begin(&mut self) -> Vec<u32> {
        let mut changed = Vec::new();
        for (number, router) in (0u32..).zip(&self.network.routers) {
            let Some(process) = &router.process else {
                continue;
            };
            for (place, statement) in (0..).zip(&process.networks) {
                let prefix = self.network.prefix_number(statement.prefix);
                let has_row = !self.network.base_exact(number, statement.prefix).is_empty();
                if let Some(prefix) = prefix.filter(|_| has_row) {
                    let cell = number * self.prefixes + prefix;
                    self.stable.cells[cell as usize] = Some(own_route(place));
                    changed.push(cell);
                }
            }
        }
        self.anything_changed = !changed.is_empty();
        changed
    }

    /// Tells each changed cell to those who hear of it.
    fn hear(&mut self, changed: &[u32]) {
        let sending = std::mem::take(&mut self.sending);
        let links = std::mem::take(&mut self.stable.links);
        for &cell in changed {
            let (sender, prefix) = (cell / self.prefixes, cell % self.prefixes);
            let best = self.stable.cells[cell as usize];
            for &link in &sending[sender as usize] {
                self.tell(&links, link, prefix, best.as_ref());
            }
        }
        self.sending = sending;
        self.stable.links = links;
    }

    /// A sender's best route has changed: what does that mean to one who hears it?
    #[inline]
    fn tell(&mut self, links: &[Link], number: u32, prefix: u32, best: Option<&Chosen>) {
        let link = &links[number as usize];
        let cell = link.router * self.prefixes + prefix;
        let standing = self.stable.cells[cell as usize];
        if let Some(standing) = &standing {
            if self.is_from(standing, cell, number) {
                self.pend(cell).whole = true;
                return;
            }
        }
        let Some(best) = best else {
            return;
        };
        if standing.is_some_and(|standing| cannot_win(link, best, &standing)) || self.paths.holds(best.path, link.own_system) {
            return;
        }
        if link.several && !(link.internal && best.internal) {
            self.pend(cell).whole = true;
            return;
        }
        let Some(candidate) = self.message(link, number, prefix, best) else {
            return;
        };
        if standing.is_some_and(|standing| compare(links, &candidate, &standing) != Ordering::Less) {
            return;
        }
        let pending = self.pend(cell);
        if pending.best.is_none_or(|found| compare(links, &candidate, &found) == Ordering::Less) {
            pending.best = Some(candidate);
        }
    }

    /// Whether one of the chosen routes of a cell is from a session.
    #[inline]
    fn is_from(&self, standing: &Chosen, cell: u32, session: u32) -> bool {
        let is_it = |chosen: &Chosen| chosen.from == RouteSource::Session(session as u16);
        is_it(standing) || standing.several && self.stable.several[&cell].iter().any(is_it)
    }

    #[inline]
    fn pend(&mut self, cell: u32) -> &mut Pending {
        let mut place = self.place[cell as usize];
        if place == NONE {
            place = self.pending.len() as u32;
            self.place[cell as usize] = place;
            self.pending.push(Pending { cell, whole: false, best: None });
        }
        &mut self.pending[place as usize]
    }

    /// What comes of a sender's best route at the other end of a session: None if it isn't sent or isn't accepted.
    #[inline]
    fn message(&mut self, link: &Link, number: u32, prefix: u32, best: &Chosen) -> Option<Chosen> {
        if link.internal && best.internal {
            return None;
        }
        let mut route = Chosen { from: RouteSource::Session(number as u16), internal: link.internal, several: false, ..*best };
        if !link.internal {
            route.metric = 0;
        }
        if link.map_out != NONE && !self.pass(link.map_out, prefix, &mut route) {
            return None;
        }
        if !link.send_community {
            route.communities = NO_COMMUNITIES;
        }
        if link.internal {
            let own = link.next_hop_self || matches!(best.from, RouteSource::Network(_));
            route.hop = if own { link.hop } else { route.hop };
        } else {
            if route.path_length >= LONGEST_PATH {
                return None;
            }
            route.path = self.paths.prepend(link.peer_system, route.path);
            route.path_length += 1;
            (route.hop, route.preference) = (link.hop, PLAIN_PREFERENCE);
        }
        let accepted = !self.paths.holds(route.path, link.own_system) && self.is_taken(link, route.hop);
        (accepted && (link.map_in == NONE || self.pass(link.map_in, prefix, &mut route))).then_some(route)
    }

    fn pass(&mut self, policy: u32, prefix: u32, route: &mut Chosen) -> bool {
        let Stable { policies, communities, .. } = &mut self.stable;
        policies.pass(self.network, policy, prefix, route, &mut self.paths, communities)
    }

    #[inline]
    fn is_taken(&mut self, link: &Link, hop: u32) -> bool {
        if hop == link.hop {
            return link.hop_is_taken;
        }
        *self.hops.entry((link.router, hop)).or_insert_with(|| is_taken(self.network, link.router, hop))
    }

    fn process(&self, router: u32) -> Option<&'a Process> {
        self.network.routers[router as usize].process.as_ref()
    }

    /// Whether a route may stand beside the best one.
    fn is_alike(&self, router: u32, best: &Chosen, other: &Chosen) -> bool {
        let relax = self.process(router).is_some_and(|process| process.relax);
        let paths = if relax { best.path_length == other.path_length } else { best.path == other.path };
        let is_external = |route: &Chosen| !route.internal && matches!(route.from, RouteSource::Session(_));
        paths && is_external(best) && is_external(other) && (best.preference, best.origin, best.metric) == (other.preference, other.origin, other.metric)
    }

    /// Works out the pending rows and puts them in; the cells whose best route changes are told.
    fn finish(&mut self, changed: &mut Vec<u32>) {
        let mut pending = std::mem::take(&mut self.pending);
        let links = std::mem::take(&mut self.stable.links);
        let mut lists = Vec::new();
        for row in pending.iter_mut().filter(|row| row.whole) {
            let chosen = self.choose(&links, row.cell);
            row.best = chosen.first().copied();
            if chosen.len() > 1 {
                lists.push((row.cell, chosen));
            }
        }
        self.stable.links = links;
        self.anything_changed = false;
        for (cell, list) in lists {
            self.anything_changed |= self.stable.several.get(&cell) != Some(&list);
            self.stable.several.insert(cell, list);
        }
        for row in pending.drain(..) {
            self.place[row.cell as usize] = NONE;
            if self.stable.cells[row.cell as usize] != row.best {
                self.anything_changed = true;
                self.stable.cells[row.cell as usize] = row.best;
                changed.push(row.cell);
            }
        }
        self.pending = pending;
    }

    /// The routes that are chosen of all that is sent to a cell, best first.
    fn choose(&mut self, links: &[Link], cell: u32) -> Vec<Chosen> {
        let (router, prefix) = (cell / self.prefixes, cell % self.prefixes);
        let mut found: Vec<Chosen> = Vec::new();
        for number in self.receiving[router as usize].clone() {
            let link = &links[number as usize];
            let Some(best) = self.stable.cells[(link.peer * self.prefixes + prefix) as usize] else {
                continue;
            };
            if found.first().is_some_and(|first| cannot_win(link, &best, first)) || self.paths.holds(best.path, link.own_system) {
                continue;
            }
            let Some(candidate) = self.message(link, number, prefix, &best) else {
                continue;
            };
            if found.first().is_some_and(|first| compare(links, &candidate, first) == Ordering::Less) {
                found.insert(0, candidate);
            } else {
                found.push(candidate);
            }
        }
        self.side_by_side(links, router, found)
    }

    /// The first of these routes, and those that may stand beside it.
    fn side_by_side(&self, links: &[Link], router: u32, mut found: Vec<Chosen>) -> Vec<Chosen> {
        let limit = self.process(router).map_or(1, |process| process.maximum_paths);
        let Some(&best) = found.first() else {
            return found;
        };
        found.retain(|route| *route == best || limit > 1 && self.is_alike(router, &best, route));
        found.sort_by(|one, other| compare(links, one, other));
        found.truncate(limit);
        found[0].several = found.len() > 1;
        found
    }
}

fn own_route(network: u16) -> Chosen {
    Chosen {
        path: EMPTY_PATH,
        hop: 0,
        preference: PLAIN_PREFERENCE,
        metric: 0,
        communities: NO_COMMUNITIES,
        from: RouteSource::Network(network),
        path_length: 0,
        origin: 0,
        internal: false,
        several: false,
    }
}

/// Whether no message about a sender's best route can be better than the standing one, or as good.
#[inline]
fn cannot_win(link: &Link, best: &Chosen, standing: &Chosen) -> bool {
    if matches!(standing.from, RouteSource::Network(_)) {
        return true;
    }
    let (preference, length) = match link.internal {
        true => (link.preference.max(best.preference), best.path_length),
        false => (link.preference, best.path_length + 1),
    };
    preference < standing.preference || preference == standing.preference && length > standing.path_length
}

/// Two accepted routes: the better one is less.
#[inline]
fn compare(links: &[Link], one: &Chosen, other: &Chosen) -> Ordering {
    let key = |route: &Chosen| (!route.preference as u64) << 32 | (route.path_length as u64) << 8 | route.origin as u64;
    let order = |route: &Chosen| match route.from {
        RouteSource::Session(session) => links[session as usize].order,
        RouteSource::Network(_) => 0,
    };
    let first = key(one).cmp(&key(other)).then(one.metric.cmp(&other.metric));
    first.then_with(|| order(one).cmp(&order(other)))
}
