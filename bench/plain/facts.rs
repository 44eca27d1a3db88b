//! The facts on which tests rest. Each is asked once and counted once; what a fact follows from is what its rule says. A fact
//! that follows from one other alone has that one's node, and one on which a single other rests is a part of that one's
//! formula: a step is part of the arrival by it, a message is part of what is accepted.

use crate::graph::{Graph, Node, Part};
use crate::index_table::{mix, IndexTable};
use crate::model::{Decided, Network, RouteSource, HOPS, NONE};
use crate::ways::{LearntRoute, Outcome, Row, Tables, Way, Ways};

/// What is known of a fact, or of some that have one node: nothing, or the node's number plus 1, with these bits.
type Known = u32;
const IS_CHOSEN: Known = 1 << 30;
const IS_MAIN: Known = 1 << 31;

/// Bits of an element: that it is a fact that was asked, and that the connected route of its interface is.
const ASKED: u8 = 1;
const CONNECTED: u8 = 2;

const STEPS: usize = HOPS as usize + 1;

#[inline]
fn node_of(known: Known) -> Option<Node> {
    let number = known & !(IS_CHOSEN | IS_MAIN);
    (number != 0).then(|| Node(number - 1))
}

/// A resolved next hop of a router.
struct Resolved {
    router: u32,
    hop: u32,
    node: Node,
}

/// By which ways a packet has to arrive.
#[derive(Clone, Copy, PartialEq, Eq)]
pub enum Arriving {
    BySome,
    ByEvery,
}

/// All facts that were asked in a session.
pub struct Facts {
    pub graph: Graph,
    /// How many facts were asked.
    pub count: u32,
    /// For each element its bits.
    elements: Vec<u8>,
    /// By base row; its main row is the same node.
    base: Vec<Known>,
    sessions: Vec<Known>,
    /// What is accepted, by session and prefix of BGP; the chosen route and its main row are the same node.
    accepted: Vec<Known>,
    /// The chosen routes that routers begin, by network statement over all routers.
    begun: Vec<Known>,
    /// For each router how many network statements the ones before it have.
    begun_before: Vec<u32>,
    resolved: Vec<Resolved>,
    resolved_places: IndexTable,
    pub ways: Ways,
    /// For each station, where its arrivals by some way and by every way start, plus 1.
    arrivals_of: Vec<[u32; 2]>,
    /// Arrivals by steps, from 0 to the most.
    arrivals: Vec<Known>,
    /// The parts of the formulas that are being made, the innermost last.
    parts: Vec<Part>,
}

impl Facts {
    pub fn new(net: &Network) -> Facts {
        let mut begun_before = Vec::with_capacity(net.routers.len());
        let mut begun = 0;
        for router in &net.routers {
            begun_before.push(begun);
            begun += router.process.as_ref().map_or(0, |process| process.networks.len() as u32);
        }
        Facts {
            graph: Graph::new(net.element_count),
            count: 0,
            elements: vec![0; net.element_count as usize],
            base: vec![0; net.base.len()],
            sessions: vec![0; net.sessions.len()],
            accepted: vec![0; net.sessions.len() * net.prefixes.len()],
            begun: vec![0; begun as usize],
            begun_before,
            resolved: Vec::new(),
            resolved_places: IndexTable::default(),
            ways: Ways::default(),
            arrivals_of: Vec::new(),
            arrivals: Vec::new(),
            parts: Vec::new(),
        }
    }

    /// An element as a fact.
    #[inline]
    fn element(&mut self, element: u32) -> Node {
        let asked = &mut self.elements[element as usize];
        self.count += (*asked & ASKED == 0) as u32;
        *asked |= ASKED;
        Node(element)
    }

    /// The connected route of the interface of this element.
    #[inline]
    fn connected(&mut self, interface: u32) -> Node {
        let asked = &mut self.elements[interface as usize];
        if *asked & CONNECTED == 0 {
            self.count += 1 + (*asked & ASKED == 0) as u32;
            *asked |= CONNECTED | ASKED;
        }
        Node(interface)
    }

    /// A row of a router's table of connected and static routes.
    #[inline]
    fn base(&mut self, net: &Network, router: u32, row: u32) -> Node {
        match node_of(self.base[row as usize]) {
            Some(node) => node,
            None => self.new_base(net, router, row),
        }
    }

    fn new_base(&mut self, net: &Network, router: u32, number: u32) -> Node {
        let (router, row) = (&net.routers[router as usize], &net.base[number as usize]);
        self.count += 1 + !row.is_connected() as u32;
        let node = if row.is_connected() {
            self.connected(router.interfaces[row.interface as usize].element)
        } else if row.discards() {
            self.element(router.statics[row.route as usize].element)
        } else {
            let route = self.element(router.statics[row.route as usize].element);
            let through = self.connected(router.interfaces[row.interface as usize].element);
            self.graph.all(&[Part::new(route, false), Part::new(through, true)])
        };
        self.base[number as usize] = node.0 + 1;
        node
    }

    /// The row of a main table that is this base row.
    #[inline]
    pub fn main_base(&mut self, net: &Network, router: u32, row: u32) -> Node {
        let node = self.base(net, router, row);
        Self::count_as(&mut self.count, &mut self.base[row as usize], IS_MAIN);
        node
    }

    /// That one of these base rows is there, which don't all discard where `resolving`.
    fn any_base(&mut self, net: &Network, router: u32, rows: std::ops::Range<u32>, resolving: bool) -> Node {
        let start = self.parts.len();
        for row in rows {
            if !(resolving && net.base[row as usize].discards()) {
                let node = self.base(net, router, row);
                self.parts.push(Part::new(node, true));
            }
        }
        let node = self.graph.any(&self.parts[start..]);
        self.parts.truncate(start);
        node
    }

    /// That base rows of a router lead to a next hop.
    fn resolve(&mut self, net: &Network, router: u32, hop: u32) -> Node {
        let resolved = &self.resolved;
        let is_same = |number: u32| resolved[number as usize].router == router && resolved[number as usize].hop == hop;
        let hash_of = |number: u32| mix(resolved[number as usize].hop as u64, resolved[number as usize].router as u64);
        let new = resolved.len() as u32;
        let number = self.resolved_places.find_or_insert(mix(hop as u64, router as u64), new, is_same, hash_of);
        if number < new {
            return self.resolved[number as usize].node;
        }
        self.count += 1;
        let node = self.any_base(net, router, net.base_longest(router, hop), true);
        self.resolved.push(Resolved { router, hop, node });
        node
    }

    /// That a session is established.
    pub fn session(&mut self, net: &Network, number: u32) -> Node {
        if let Some(node) = node_of(self.sessions[number as usize]) {
            return node;
        }
        self.count += 1;
        let session = &net.sessions[number as usize];
        let start = self.parts.len();
        let ends = [(session.router, session.neighbor, session.source), (session.peer, session.peer_neighbor, session.peer_source)];
        for (router, neighbor, source) in ends {
            let router_of = &net.routers[router as usize];
            let Some(process) = &router_of.process else { continue };
            let neighbor = &process.neighbors[neighbor as usize];
            let station = self.ways.station(net, Tables::Base, neighbor.address, router);
            let reached = self.arrive(net, station, Arriving::BySome, HOPS);
            let source = self.connected(router_of.interfaces[source as usize].element);
            for node in [self.element(process.element), self.element(neighbor.element), source, reached] {
                self.parts.push(Part::new(node, false));
            }
        }
        let node = self.all_from(start);
        self.sessions[number as usize] = node.0 + 1;
        node
    }

    /// The node of all parts from a place on, which are then let go.
    fn all_from(&mut self, start: usize) -> Node {
        let node = self.graph.all(&self.parts[start..]);
        self.parts.truncate(start);
        node
    }

    /// The route that a router has chosen to a prefix of BGP, of several the one in this place.
    pub fn chosen(&mut self, net: &Network, router: u32, prefix: u32, place: usize) -> Node {
        let chosen = &net.chosen(router, prefix)[place];
        match chosen.from {
            RouteSource::Network(statement) => self.begun(net, router, statement),
            RouteSource::Session(session) => {
                let route = LearntRoute { session: session as u32, prefix, hop: chosen.hop };
                let node = self.accepted(net, route);
                Self::count_as(&mut self.count, &mut self.accepted[accepted_place(net, route)], IS_CHOSEN);
                node
            }
        }
    }

    /// Counts for a fact that its node was asked as one of these, too.
    #[inline]
    fn count_as(count: &mut u32, known: &mut Known, asked: Known) {
        *count += (asked & !*known).count_ones();
        *known |= asked;
    }

    /// The row of a main table by a route that its router has chosen.
    pub fn main_learnt(&mut self, net: &Network, route: LearntRoute) -> Node {
        let node = self.accepted(net, route);
        let place = accepted_place(net, route);
        Self::count_as(&mut self.count, &mut self.accepted[place], IS_CHOSEN | IS_MAIN);
        node
    }

    /// The chosen route that a router begins by a network statement, with the rows of its prefix, on which nothing else rests.
    fn begun(&mut self, net: &Network, router: u32, statement: u16) -> Node {
        let place = (self.begun_before[router as usize] + statement as u32) as usize;
        if let Some(node) = node_of(self.begun[place]) {
            return node;
        }
        let Some(process) = &net.routers[router as usize].process else { unreachable!("a router begins routes by its process") };
        let network = &process.networks[statement as usize];
        self.count += 3;
        let source = self.any_base(net, router, net.base_exact(router, network.prefix), false);
        let start = self.parts.len();
        for node in [self.element(process.element), self.element(network.element), source] {
            self.parts.push(Part::new(node, false));
        }
        let node = self.all_from(start);
        self.begun[place] = node.0 + 1;
        node
    }

    /// What a router accepts by a session, with the message, on which nothing else rests.
    #[inline]
    fn accepted(&mut self, net: &Network, route: LearntRoute) -> Node {
        match node_of(self.accepted[accepted_place(net, route)]) {
            Some(node) => node,
            None => self.newly_accepted(net, route),
        }
    }

    fn newly_accepted(&mut self, net: &Network, route: LearntRoute) -> Node {
        self.count += 2;
        let link = &net.stable.links[route.session as usize];
        let established = self.session(net, route.session);
        let best = self.chosen(net, link.peer, route.prefix, 0);
        let resolved = self.resolve(net, link.router, route.hop);
        let start = self.parts.len();
        self.parts.extend([established, best, resolved].map(|node| Part::new(node, false)));
        if link.map_out != NONE || link.map_in != NONE {
            let exchange = net.exchange(route.session, route.prefix).expect("an accepted route is exchanged");
            debug_assert_eq!(exchange.hop, route.hop);
            self.push_decided(&exchange.sent_by);
            self.push_decided(&exchange.accepted_by);
        }
        let node = self.all_from(start);
        self.accepted[accepted_place(net, route)] = node.0 + 1;
        node
    }

    /// The elements by which a map decided.
    fn push_decided(&mut self, decided: &Decided) {
        for element in [decided.clause, decided.prefix_entry, decided.community_entry] {
            if element != NONE {
                let node = self.element(element);
                self.parts.push(Part::new(node, false));
            }
        }
    }

    /// That a packet arrives from a station within so many steps.
    pub fn arrive(&mut self, net: &Network, station: u32, arriving: Arriving, steps: u32) -> Node {
        let place = self.arrival(station, arriving) + steps as usize;
        if let Some(node) = node_of(self.arrivals[place]) {
            return node;
        }
        self.count += 1;
        let owned = self.ways.stations[station as usize].owned;
        let node = if owned == NONE { self.by_ways(net, station, arriving, steps) } else { self.connected(owned) };
        self.arrivals[place] = node.0 + 1;
        node
    }

    /// Where the arrivals from a station start.
    #[inline]
    fn arrival(&mut self, station: u32, arriving: Arriving) -> usize {
        if self.arrivals_of.len() <= station as usize {
            self.arrivals_of.resize(self.ways.stations.len(), [0; 2]);
        }
        let start = &mut self.arrivals_of[station as usize][arriving as usize];
        if *start == 0 {
            *start = self.arrivals.len() as u32 + 1;
            self.arrivals.resize(self.arrivals.len() + STEPS, 0);
        }
        *start as usize - 1
    }

    /// That a packet arrives from a station by its ways, each of which is a fact of its own.
    fn by_ways(&mut self, net: &Network, station: u32, arriving: Arriving, steps: u32) -> Node {
        let from = self.ways.stations[station as usize];
        let start = self.parts.len();
        for place in from.ways.0..from.ways.1 {
            let way = self.ways.ways[place as usize];
            if self.ways.arrives(&way, steps) {
                self.count += 1;
                self.push_step(net, from.router, from.tables, &way, arriving, steps);
            }
        }
        let parts = &self.parts[start..];
        let node = if arriving == Arriving::ByEvery { self.graph.all(parts) } else { self.graph.any(parts) };
        self.parts.truncate(start);
        node
    }

    /// What arriving by a way rests on, as one alternative.
    #[inline]
    fn push_step(&mut self, net: &Network, router: u32, tables: Tables, way: &Way, arriving: Arriving, steps: u32) {
        match way.row {
            Row::Base(row) if tables == Tables::Base => {
                let node = self.base(net, router, row);
                self.parts.push(Part::new(node, false));
            }
            Row::Base(row) => {
                let node = self.main_base(net, router, row);
                self.parts.push(Part::new(node, false));
            }
            Row::Learnt { route, base } => {
                let node = self.main_learnt(net, route);
                let base = self.base(net, router, base);
                self.parts.extend([Part::new(node, false), Part::new(base, false)]);
            }
        }
        if let Outcome::Onward { station, interface } = way.outcome {
            let node = self.connected(interface);
            let onward = self.arrive(net, station, arriving, steps - 1);
            self.parts.extend([Part::new(node, false), Part::new(onward, false)]);
        }
        if let Some(last) = self.parts.last_mut() {
            *last = last.ending();
        }
    }
}

/// The place of what is accepted among all that is, by session and prefix.
#[inline]
fn accepted_place(net: &Network, route: LearntRoute) -> usize {
    route.session as usize * net.prefixes.len() + route.prefix as usize
}
