//! The ways of packets for an address, by main tables or by the tables of connected and static routes alone. They are worked
//! out from the asked router forward, for the routers alone to which it leads, and kept for the whole session.

use crate::index_table::{mix, IndexTable};
use crate::model::{BaseRow, Chosen, Covering, MainRows, Network, Place, RouteSource, HOPS, NONE};

/// More steps than any packet takes: of what doesn't arrive.
pub const NEVER: u32 = HOPS + 1;

/// The tables by which a packet goes.
#[derive(Clone, Copy, PartialEq, Eq)]
pub enum Tables {
    Base,
    Main,
}

/// A route by BGP that a router has accepted by a session, to one of the network's prefixes of BGP.
#[derive(Clone, Copy)]
pub struct LearntRoute {
    pub session: u32,
    pub prefix: u32,
    pub hop: u32,
}

impl LearntRoute {
    /// A chosen route as one that was accepted, if the router didn't begin it.
    #[inline]
    pub fn of(chosen: &Chosen, prefix: u32) -> Option<LearntRoute> {
        match chosen.from {
            RouteSource::Session(session) => Some(LearntRoute { session: session as u32, prefix, hop: chosen.hop }),
            RouteSource::Network(_) => None,
        }
    }
}

/// A row by which a packet goes.
#[derive(Clone, Copy)]
pub enum Row {
    Base(u32),
    /// A route by BGP, and the base row that leads to its next hop.
    Learnt { route: LearntRoute, base: u32 },
}

/// Where a row leads.
#[derive(Clone, Copy)]
pub enum Outcome {
    Lost,
    /// To a host on a connected network.
    Delivered,
    /// To the next station, by the interface of this element.
    Onward { station: u32, interface: u32 },
}

#[derive(Clone, Copy)]
pub struct Way {
    pub row: Row,
    pub outcome: Outcome,
}

/// A router as packets for an address come by it.
#[derive(Clone, Copy)]
pub struct Station {
    pub address: u32,
    pub router: u32,
    pub tables: Tables,
    /// The element of its own interface that has the address, or NONE.
    pub owned: u32,
    /// Its ways among all ways.
    pub ways: (u32, u32),
    /// The fewest steps by which a packet arrives, and the most that it may take; NEVER where it may not arrive.
    pub fewest: u32,
    pub most: u32,
}

/// All stations of a session, and their ways.
#[derive(Default)]
pub struct Ways {
    pub stations: Vec<Station>,
    pub ways: Vec<Way>,
    places: IndexTable,
}

#[inline]
fn hash_of(tables: Tables, address: u32, router: u32) -> u64 {
    mix(address as u64, (router as u64) << 1 | (tables == Tables::Main) as u64)
}

/// What a walk from a station asks of its address over and over.
struct Target {
    tables: Tables,
    address: u32,
    owner: Option<Place>,
    covering: Option<Covering>,
}

impl Ways {
    /// The station of a router for packets to an address, with all stations to which it leads.
    pub fn station(&mut self, net: &Network, tables: Tables, address: u32, router: u32) -> u32 {
        let first = self.stations.len();
        let station = self.enter(tables, address, router);
        if (station as usize) < first {
            return station;
        }
        let covering = (tables == Tables::Main).then(|| net.covering(address));
        let target = Target { tables, address, owner: net.owner(address), covering };
        let mut next = first;
        while next < self.stations.len() {
            self.open(net, &target, next);
            next += 1;
        }
        self.measure(first);
        station
    }

    /// The number of a station, which is new where it wasn't there.
    fn enter(&mut self, tables: Tables, address: u32, router: u32) -> u32 {
        let stations = &self.stations;
        let new = stations.len() as u32;
        let is_same = |number: u32| {
            let station = &stations[number as usize];
            station.address == address && station.router == router && station.tables == tables
        };
        let hash_of_entered = |number: u32| {
            let station = &stations[number as usize];
            hash_of(station.tables, station.address, station.router)
        };
        let number = self.places.find_or_insert(hash_of(tables, address, router), new, is_same, hash_of_entered);
        if number == new {
            self.stations.push(Station { address, router, tables, owned: NONE, ways: (0, 0), fewest: NEVER, most: NEVER });
        }
        number
    }

    /// Works out the ways of a station.
    fn open(&mut self, net: &Network, target: &Target, place: usize) {
        let router = self.stations[place].router;
        if let Some(owner) = target.owner.filter(|owner| owner.router == router) {
            let element = net.interface(owner).element;
            let station = &mut self.stations[place];
            (station.owned, station.fewest, station.most) = (element, 0, 0);
            return;
        }
        let start = self.ways.len() as u32;
        match &target.covering {
            None => {
                for row in net.base_longest(router, target.address) {
                    self.push_base(net, target, router, row);
                }
            }
            Some(covering) => match net.main_longest(router, covering) {
                MainRows::None => {}
                MainRows::Base(rows) => rows.for_each(|row| self.push_base(net, target, router, row)),
                MainRows::Chosen(prefix) => self.push_learnt(net, target, router, prefix),
            },
        }
        self.stations[place].ways = (start, self.ways.len() as u32);
    }

    fn push_base(&mut self, net: &Network, target: &Target, router: u32, number: u32) {
        let row = &net.base[number as usize];
        let outcome = if target.tables == Tables::Main && row.is_connected() && target.owner.is_none() {
            Outcome::Delivered
        } else {
            self.lead(net, target, router, row, target.address)
        };
        self.ways.push(Way { row: Row::Base(number), outcome });
    }

    fn push_learnt(&mut self, net: &Network, target: &Target, router: u32, prefix: u32) {
        for route in net.chosen(router, prefix).iter().filter_map(|chosen| LearntRoute::of(chosen, prefix)) {
            for base in net.base_longest(router, route.hop) {
                let row = &net.base[base as usize];
                if !row.discards() {
                    let outcome = self.lead(net, target, router, row, route.hop);
                    self.ways.push(Way { row: Row::Learnt { route, base }, outcome });
                }
            }
        }
    }

    /// Where a row leads that sends what is for this address.
    fn lead(&mut self, net: &Network, target: &Target, router: u32, row: &BaseRow, address: u32) -> Outcome {
        let led = if row.discards() { None } else { net.leads(router, row, address) };
        match led {
            None => Outcome::Lost,
            Some(place) => Outcome::Onward {
                station: self.enter(target.tables, target.address, place.router),
                interface: net.interface(place).element,
            },
        }
    }

    /// Measures the steps from the new stations, the last ones of all, on which no other station depends.
    fn measure(&mut self, first: usize) {
        let mut has_changed = true;
        while has_changed {
            has_changed = false;
            for place in (first..self.stations.len()).rev() {
                let (fewest, most) = self.steps_from(place);
                let station = &mut self.stations[place];
                has_changed |= (fewest, most) != (station.fewest, station.most);
                (station.fewest, station.most) = (fewest, most);
            }
        }
    }

    /// The fewest and the most steps from a station, by what is known of those behind it.
    fn steps_from(&self, place: usize) -> (u32, u32) {
        let station = &self.stations[place];
        let (start, end) = station.ways;
        if start == end {
            return (station.fewest, station.most);
        }
        let (mut fewest, mut most) = (NEVER, 0);
        for way in &self.ways[start as usize..end as usize] {
            let (least, greatest) = match way.outcome {
                Outcome::Lost => (NEVER, NEVER),
                Outcome::Delivered => (0, 0),
                Outcome::Onward { station, .. } => {
                    let next = &self.stations[station as usize];
                    (next.fewest + 1, next.most + 1)
                }
            };
            fewest = fewest.min(least);
            most = most.max(greatest);
        }
        (fewest, most.min(NEVER))
    }

    /// Whether a packet arrives by a way within so many steps.
    #[inline]
    pub fn arrives(&self, way: &Way, steps: u32) -> bool {
        match way.outcome {
            Outcome::Lost => false,
            Outcome::Delivered => true,
            Outcome::Onward { station, .. } => self.stations[station as usize].fewest < steps,
        }
    }
}
