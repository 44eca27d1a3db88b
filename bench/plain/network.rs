//! Puts the routers together: what must not be, owners of addresses, tables of connected and static routes; and the
//! look-ups in a loaded network.

use std::ops::Range;

use crate::base_tables::{base_rows_of, UpInterfaces};
use crate::bgp;
use crate::index_table::{mix, IndexTable};
use crate::model::*;
use crate::sessions::{establish, Neighborhood};

const MOST_PREFIXES: usize = 1024;
const MOST_NEIGHBORS: usize = 1024;

/// Why files don't make a network.
pub enum Fault {
    /// A router, one of its lines from 1, and the cause.
    Config(u32, u32, &'static str),
    Limit(&'static str),
    Unstable,
}

/// The interfaces that are up, by address.
#[derive(Default)]
pub struct Owners {
    places: Vec<(u32, Place)>,
    table: IndexTable,
    /// The neighbors of all routers by router and address.
    pub neighborhood: Neighborhood,
}

impl Owners {
    #[inline]
    pub fn find(&self, address: u32) -> Option<Place> {
        let found = self.table.find(mix(address as u64, 0), |k| self.places[k as usize].0 == address)?;
        Some(self.places[found as usize].1)
    }

    /// Enters an interface; gives the one that has its address already.
    fn enter(&mut self, address: u32, place: Place) -> Option<Place> {
        let Owners { places, table, .. } = self;
        let new = places.len() as u32;
        let found = table.find_or_insert(mix(address as u64, 0), new, |k| places[k as usize].0 == address, |k| mix(places[k as usize].0 as u64, 0));
        if found == new {
            places.push((address, place));
            return None;
        }
        Some(places[found as usize].1)
    }
}

/// The network of these routers, settled within so many rounds.
pub fn assemble(mut routers: Vec<Router>, rounds: u32) -> Result<Network, Fault> {
    check_names(&routers)?;
    let up: Vec<UpInterfaces> = routers.iter().map(|router| UpInterfaces::of(&router.interfaces)).collect();
    check_overlaps(&routers, &up)?;
    let mut owners = find_owners(&routers)?;
    check_limits(&routers)?;
    let mut base = Vec::new();
    for (router, up) in routers.iter_mut().zip(&up) {
        let start = base.len() as u32;
        base_rows_of(router, up, &mut base);
        router.base = start..base.len() as u32;
    }
    base.shrink_to_fit();
    owners.neighborhood = Neighborhood::of(&routers);
    let element_count = routers.last().map_or(0, |router| router.elements.end);
    let prefixes = bgp_prefixes(&routers);
    let mut network = Network { routers, element_count, base, sessions: Vec::new(), prefixes, owners, stable: bgp::Stable::default() };
    network.sessions = establish(&mut network, &up);
    network.stable = bgp::settle(&network, rounds).ok_or(Fault::Unstable)?;
    Ok(network)
}

fn check_names(routers: &[Router]) -> Result<(), Fault> {
    for (k, router) in routers.iter().enumerate() {
        let twin = routers[k + 1..].iter().position(|other| other.name == router.name);
        if let Some(behind) = twin {
            let twin = k + 1 + behind;
            return Err(Fault::Config(twin as u32, routers[twin].name_line + 1, "same-name"));
        }
    }
    Ok(())
}

fn check_overlaps(routers: &[Router], up: &[UpInterfaces]) -> Result<(), Fault> {
    for (number, (router, up)) in routers.iter().zip(up).enumerate() {
        if !up.overlap() {
            continue;
        }
        let lines = |(one, other): (&Interface, &Interface)| (one.address_line.min(other.address_line), one.address_line.max(other.address_line));
        let pairs = router.interfaces.iter().enumerate().flat_map(|(k, one)| router.interfaces[k + 1..].iter().map(move |other| (one, other)));
        let meet = |(one, other): &(&Interface, &Interface)| one.is_up() && other.is_up() && (one.prefix().holds(other.prefix()) || other.prefix().holds(one.prefix()));
        let first = pairs.filter(meet).map(lines).min();
        return Err(Fault::Config(number as u32, first.map_or(0, |(_, line)| line + 1), "overlap"));
    }
    Ok(())
}

fn find_owners(routers: &[Router]) -> Result<Owners, Fault> {
    let mut owners = Owners::default();
    let mut twins = Vec::new();
    for (number, router) in (0..).zip(routers) {
        for (interface, face) in (0..).zip(&router.interfaces).filter(|(_, face)| face.is_up()) {
            if let Some(first) = owners.enter(face.address, Place { router: number, interface }) {
                let line = routers[first.router as usize].interfaces[first.interface as usize].address_line;
                twins.push((first.router, line, number, face.address_line));
            }
        }
    }
    match twins.into_iter().min() {
        Some((_, _, router, line)) => Err(Fault::Config(router, line + 1, "same-address")),
        None => Ok(owners),
    }
}

fn check_limits(routers: &[Router]) -> Result<(), Fault> {
    let (mut prefixes, mut table) = (Vec::new(), IndexTable::default());
    let hash = |prefix: Prefix| mix(prefix.address as u64, prefix.length as u64);
    let mut last = None;
    let mut enter = |prefix: Prefix| {
        if last.replace(prefix) != Some(prefix) {
            let new = prefixes.len() as u32;
            let is_same = |k: u32| prefixes[k as usize] == prefix;
            if table.find_or_insert(hash(prefix), new, is_same, |k| hash(prefixes[k as usize])) == new {
                prefixes.push(prefix);
            }
        }
        prefixes.len() <= MOST_PREFIXES
    };
    for router in routers {
        let faces = router.interfaces.iter().filter(|face| face.length > 0).map(Interface::prefix);
        let statics = router.statics.iter().map(|route| route.prefix);
        let networks = router.process.iter().flat_map(|process| process.networks.iter().map(|network| network.prefix));
        let few = faces.fold(true, |few, prefix| enter(prefix) && few);
        let few = statics.fold(few, |few, prefix| enter(prefix) && few);
        if !networks.fold(few, |few, prefix| enter(prefix) && few) {
            return Err(Fault::Limit("prefixes"));
        }
    }
    let neighbors = routers.iter().filter_map(|router| router.process.as_ref()).map(|process| process.neighbors.len());
    if neighbors.sum::<usize>() > MOST_NEIGHBORS {
        return Err(Fault::Limit("neighbours"));
    }
    Ok(())
}

fn bgp_prefixes(routers: &[Router]) -> Vec<Prefix> {
    let processes = routers.iter().filter_map(|router| router.process.as_ref());
    let mut prefixes: Vec<Prefix> = processes.flat_map(|process| process.networks.iter().map(|network| network.prefix)).collect();
    prefixes.sort_unstable();
    prefixes.dedup();
    prefixes
}

impl Network {
    /// The interface that is up and has the address.
    #[inline]
    pub fn owner(&self, address: u32) -> Option<Place> {
        self.owners.find(address)
    }

    #[inline]
    pub fn interface(&self, place: Place) -> &Interface {
        &self.routers[place.router as usize].interfaces[place.interface as usize]
    }

    pub fn element_router(&self, element: u32) -> u32 {
        self.routers.partition_point(|router| router.elements.end <= element) as u32
    }

    /// The rows of a router to exactly this prefix.
    #[inline]
    pub fn base_exact(&self, router: u32, prefix: Prefix) -> Range<u32> {
        let all = self.routers[router as usize].base.clone();
        let rows = &self.base[all.start as usize..all.end as usize];
        let start = rows.partition_point(|row| row.prefix < prefix);
        self.rows_from(all.start + start as u32, all.end, prefix)
    }

    /// The rows to this prefix among those from `start` on.
    #[inline]
    fn rows_from(&self, start: u32, end: u32, prefix: Prefix) -> Range<u32> {
        let is_it = |row: u32| row < end && self.base[row as usize].prefix == prefix;
        if !is_it(start) {
            return start..start;
        }
        if !is_it(start + 1) {
            return start..start + 1;
        }
        let rows = &self.base[start as usize..end as usize];
        start..start + rows.partition_point(|row| row.prefix == prefix) as u32
    }

    /// The rows of the longest prefix that covers an address, discarding ones too.
    pub fn base_longest(&self, router: u32, address: u32) -> Range<u32> {
        let all = self.routers[router as usize].base.clone();
        let rows = &self.base[all.start as usize..all.end as usize];
        let behind = rows.partition_point(|row| row.prefix.address <= address);
        let mut row = all.start + behind as u32;
        if behind == 0 {
            return row..row;
        }
        row -= 1;
        while !self.base[row as usize].prefix.covers(address) {
            let around = self.base[row as usize].around;
            if around == NONE {
                return all.end..all.end;
            }
            row = around;
        }
        self.base_exact(router, self.base[row as usize].prefix)
    }

    /// Where a row that doesn't discard leads with a packet for an address.
    #[inline]
    pub fn leads(&self, router: u32, row: &BaseRow, address: u32) -> Option<Place> {
        let hop = if row.is_connected() { address } else { row.hop };
        let place = self.owner(hop).filter(|place| place.router != router)?;
        let own = self.routers[router as usize].interfaces[row.interface as usize].prefix();
        (self.interface(place).prefix() == own).then_some(place)
    }

    /// Whether a row leads on with packets for an address: one of the longest prefix that doesn't discard.
    pub fn has_hit(&self, router: u32, address: u32) -> bool {
        self.base_longest(router, address).any(|row| !self.base[row as usize].discards())
    }

    /// The established session with the neighbor at an address.
    #[inline]
    pub fn session_at(&self, router: u32, address: u32) -> Option<u32> {
        let neighbor = self.owners.neighborhood.find(router, address)?;
        let process = self.routers[router as usize].process.as_ref()?;
        Some(process.neighbors[neighbor as usize].session).filter(|&session| session != NONE)
    }

    #[inline]
    pub fn prefix_number(&self, prefix: Prefix) -> Option<u32> {
        self.prefixes.binary_search(&prefix).ok().map(|place| place as u32)
    }

    /// What a router has chosen of a prefix of BGP, best first.
    #[inline]
    pub fn chosen(&self, router: u32, prefix: u32) -> &[Chosen] {
        self.stable.chosen(router as usize * self.prefixes.len() + prefix as usize)
    }

    /// The rows of a main table to exactly this prefix.
    pub fn main_exact(&self, router: u32, prefix: Prefix) -> MainRows {
        let rows = self.base_exact(router, prefix);
        let number = self.prefix_number(prefix);
        self.main_of(router, rows, number)
    }

    fn main_of(&self, router: u32, rows: Range<u32>, prefix: Option<u32>) -> MainRows {
        let distance = prefix.map_or(NONE, |prefix| self.bgp_distance(router, prefix));
        if !rows.is_empty() && self.base_distance(router, rows.start) <= distance {
            return MainRows::Base(rows);
        }
        match prefix {
            Some(prefix) if distance != NONE => MainRows::Chosen(prefix),
            _ => MainRows::None,
        }
    }

    fn base_distance(&self, router: u32, row: u32) -> u32 {
        let row = &self.base[row as usize];
        match row.is_connected() {
            true => 0,
            false => self.routers[router as usize].statics[row.route as usize].distance as u32,
        }
    }

    /// The distance of the rows by BGP to a prefix; NONE without any.
    #[inline]
    fn bgp_distance(&self, router: u32, prefix: u32) -> u32 {
        match self.chosen(router, prefix).first() {
            Some(Chosen { from: RouteSource::Session(_), internal, .. }) => if *internal { 200 } else { 20 },
            _ => NONE,
        }
    }

    /// The prefixes of BGP that cover an address, longest first.
    pub fn covering(&self, address: u32) -> Covering {
        let mut prefixes: Vec<u32> = (0..).zip(&self.prefixes).filter(|(_, prefix)| prefix.covers(address)).map(|(number, _)| number).collect();
        prefixes.reverse();
        Covering { address, prefixes }
    }

    /// The rows of the longest prefix of a main table that covers an address.
    pub fn main_longest(&self, router: u32, covering: &Covering) -> MainRows {
        let rows = self.base_longest(router, covering.address);
        let base_prefix = rows.clone().next().map(|row| self.base[row as usize].prefix);
        let base_length = base_prefix.map_or(-1, |prefix| prefix.length as i32);
        for &number in &covering.prefixes {
            let prefix = self.prefixes[number as usize];
            if (prefix.length as i32) < base_length {
                break;
            }
            let same = Some(prefix) == base_prefix;
            let main = self.main_of(router, if same { rows.clone() } else { 0..0 }, Some(number));
            if main != MainRows::None {
                return main;
            }
        }
        match rows.is_empty() {
            true => MainRows::None,
            false => MainRows::Base(rows),
        }
    }
}

impl Router {
    /// The lines of one of its elements, from 0.
    pub fn lines_of(&self, element: u32) -> impl Iterator<Item = u32> + '_ {
        let first = self.first_lines[(element - self.elements.start) as usize];
        let start = self.further_lines.partition_point(|&(of, _)| of < element);
        let further = self.further_lines[start..].iter().take_while(move |&&(of, _)| of == element);
        std::iter::once(first).chain(further.map(|&(_, line)| line))
    }
}
