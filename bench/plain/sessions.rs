//! The sessions that are established.

use crate::base_tables::UpInterfaces;
use crate::distances::Distances;
use crate::index_table::{mix, IndexTable};
use crate::model::*;

/// The neighbors of all routers, by router and address.
#[derive(Default)]
pub struct Neighborhood {
    /// Router, address, and the neighbor's number in the router.
    neighbors: Vec<(u32, u32, u32)>,
    table: IndexTable,
}

impl Neighborhood {
    pub fn of(routers: &[Router]) -> Self {
        let mut found = Neighborhood::default();
        for (router, process) in (0..).zip(routers).filter_map(|(number, router)| Some((number, router.process.as_ref()?))) {
            for (number, neighbor) in (0..).zip(&process.neighbors) {
                found.enter(router, neighbor.address, number);
            }
        }
        found
    }

    fn enter(&mut self, router: u32, address: u32, number: u32) {
        let Neighborhood { neighbors, table } = self;
        let new = neighbors.len() as u32;
        table.find_or_insert(mix(router as u64, address as u64), new, |_| false, |k| mix(neighbors[k as usize].0 as u64, neighbors[k as usize].1 as u64));
        neighbors.push((router, address, number));
    }

    #[inline]
    pub fn find(&self, router: u32, address: u32) -> Option<u32> {
        let is_it = |k: u32| (self.neighbors[k as usize].0, self.neighbors[k as usize].1) == (router, address);
        self.table.find(mix(router as u64, address as u64), is_it).map(|found| self.neighbors[found as usize].2)
    }
}

/// What is asked for sessions.
struct Sessions<'a> {
    network: &'a Network,
    up: &'a [UpInterfaces],
    distances: Distances,
}

/// The established sessions in order of router and neighbor; each neighbor is told its own.
pub fn establish(network: &mut Network, up: &[UpInterfaces]) -> Vec<Session> {
    let mut sessions = Vec::new();
    let mut asked = Sessions { network, up, distances: Distances::default() };
    let neighbors_of = |process: &Process| 0..process.neighbors.len() as u32;
    let processes = network.routers.iter().map(|router| router.process.as_ref().map_or(0..0, neighbors_of));
    for (router, neighbors) in (0..).zip(processes) {
        sessions.extend(neighbors.filter_map(|neighbor| asked.session(router, neighbor)));
    }
    for (number, session) in (0..).zip(&sessions) {
        if let Some(process) = &mut network.routers[session.router as usize].process {
            process.neighbors[session.neighbor as usize].session = number;
        }
    }
    sessions
}

impl Sessions<'_> {
    /// The interface from which a neighbor's session is opened, which is up.
    fn source(&self, router: u32, neighbor: &Neighbor) -> Option<u32> {
        let faces = &self.network.routers[router as usize].interfaces;
        if neighbor.source != NONE {
            return Some(neighbor.source).filter(|&face| faces[face as usize].is_up());
        }
        let rows = self.network.base_longest(router, neighbor.address);
        rows.map(|row| &self.network.base[row as usize]).find(|row| !row.discards()).map(|row| row.interface)
    }

    fn is_near(&self, router: u32, neighbor: &Neighbor) -> bool {
        neighbor.multihop || self.up[router as usize].covering(neighbor.address).is_some()
    }

    fn reaches(&mut self, router: u32, address: u32) -> bool {
        self.distances.reach(self.network, address, router) <= HOPS
    }

    fn session(&mut self, router: u32, number: u32) -> Option<Session> {
        let network = self.network;
        let mine = network.routers[router as usize].process.as_ref()?;
        let own = &mine.neighbors[number as usize];
        let source = self.source(router, own)?;
        let here = network.interface(Place { router, interface: source }).address;
        let peer = network.owner(own.address)?.router;
        let yours = network.routers[peer as usize].process.as_ref()?;
        if own.shut || peer == router || yours.number != own.number {
            return None;
        }
        let peer_neighbor = network.owners.neighborhood.find(peer, here)?;
        let other = &yours.neighbors[peer_neighbor as usize];
        let peer_source = self.source(peer, other)?;
        let back = network.interface(Place { router: peer, interface: peer_source }).address;
        if other.shut || other.number != mine.number || back != own.address {
            return None;
        }
        let internal = mine.number == yours.number;
        if !internal && !(self.is_near(router, own) && self.is_near(peer, other)) {
            return None;
        }
        let established = self.reaches(router, own.address) && self.reaches(peer, here);
        established.then_some(Session { router, neighbor: number, peer, peer_neighbor, source, peer_source, internal })
    }
}
