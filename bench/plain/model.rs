//! The loaded network: what the files say of each router, and what was worked out of it — base tables, sessions and the
//! routes that BGP has chosen. Routers are numbered in order of their files, elements over all routers in order of router
//! and first line; interfaces, static routes, neighbors and lines (from 0) are numbered within their router, base rows,
//! sessions and the prefixes of BGP over the whole network. The look-ups stand in `network.rs`, `exchange.rs` and `distances.rs`.

use std::ops::Range;

/// The number of nothing, wherever a number may be missing.
pub const NONE: u32 = u32::MAX;
/// The most steps of a packet, and of a session's packets over base tables.
pub const HOPS: u32 = 30;

/// A prefix: an address whose bits behind the length are clear. Prefixes are ordered by address, then by length.
#[derive(Clone, Copy, PartialEq, Eq, PartialOrd, Ord, Hash, Debug)]
pub struct Prefix {
    pub address: u32,
    pub length: u8,
}

/// The mask of so many ones.
#[inline]
pub fn mask_of(length: u8) -> u32 {
    (!0u64 << (32 - length as u32)) as u32
}

impl Prefix {
    #[inline]
    pub fn covers(self, address: u32) -> bool {
        (address ^ self.address) & mask_of(self.length) == 0
    }

    /// Whether the other prefix is this one or inside it.
    #[inline]
    pub fn holds(self, inner: Prefix) -> bool {
        self.length <= inner.length && self.covers(inner.address)
    }
}

/// A piece of a file's bytes.
#[derive(Clone, Copy, PartialEq, Eq, Debug, Default)]
pub struct Span {
    pub start: u32,
    pub end: u32,
}

/// An interface of a router.
#[derive(Clone, Copy, PartialEq, Eq, Debug)]
pub struct Place {
    pub router: u32,
    pub interface: u32,
}

#[derive(Clone)]
pub struct Interface {
    pub name: Span,
    pub address: u32,
    /// The length of the mask; 0 without an address.
    pub length: u8,
    pub shut: bool,
    /// The line that gives the address, from 0.
    pub address_line: u32,
    pub element: u32,
}

impl Interface {
    #[inline]
    pub fn is_up(&self) -> bool {
        self.length > 0 && !self.shut
    }

    #[inline]
    pub fn prefix(&self) -> Prefix {
        Prefix { address: self.address & mask_of(self.length), length: self.length }
    }
}

#[derive(Clone)]
pub struct StaticRoute {
    pub prefix: Prefix,
    pub distance: u8,
    pub discards: bool,
    /// The interface that the statement names, or NONE.
    pub interface: u32,
    pub hop: u32,
    pub element: u32,
}

#[derive(Clone)]
pub struct NetworkStatement {
    pub prefix: Prefix,
    pub element: u32,
}

#[derive(Clone)]
pub struct Neighbor {
    pub address: u32,
    /// The number of the neighbor's system.
    pub number: u32,
    /// The interface that `update-source` names, or NONE.
    pub source: u32,
    pub multihop: bool,
    pub next_hop_self: bool,
    pub send_community: bool,
    pub shut: bool,
    /// The route maps for what comes in and goes out, or NONE.
    pub map_in: u32,
    pub map_out: u32,
    pub element: u32,
    /// The established session with this neighbor, or NONE.
    pub session: u32,
}

pub struct Process {
    /// The number of the router's own system.
    pub number: u32,
    pub router_id: Option<u32>,
    pub maximum_paths: usize,
    pub relax: bool,
    pub element: u32,
    pub networks: Vec<NetworkStatement>,
    pub neighbors: Vec<Neighbor>,
}

/// An entry of a prefix list: of prefixes inside `address/length` with a length from `low` to `high`.
#[derive(Clone, Copy)]
pub struct ListEntry {
    pub sequence: u32,
    pub address: u32,
    pub element: u32,
    pub length: u8,
    pub low: u8,
    pub high: u8,
    pub permit: bool,
}

/// A prefix list, its entries in order of their numbers.
#[derive(Default)]
pub struct PrefixList {
    pub entries: Vec<ListEntry>,
}

pub struct CommunityEntry {
    pub permit: bool,
    /// The communities, in order, each once.
    pub members: Vec<u32>,
    pub element: u32,
}

#[derive(Default)]
pub struct CommunityList {
    pub entries: Vec<CommunityEntry>,
}

/// A clause of a route map.
pub struct Clause {
    pub number: u32,
    pub permit: bool,
    pub element: u32,
    /// The prefix lists and the community lists that it names, by number in the router.
    pub prefix_lists: Vec<u32>,
    pub community_lists: Vec<u32>,
    pub sets: Sets,
}

/// What a clause sets.
#[derive(Default)]
pub struct Sets {
    pub preference: Option<u32>,
    pub metric: Option<u32>,
    /// 0 is igp, 1 is incomplete.
    pub origin: Option<u8>,
    pub prepend: Vec<u32>,
    /// The communities in order, and whether they are added to those that are there.
    pub communities: Option<(Vec<u32>, bool)>,
}

/// A route map, its clauses in order of their numbers.
#[derive(Default)]
pub struct RouteMap {
    pub clauses: Vec<Clause>,
}

/// What one file says.
pub struct Router {
    pub file: String,
    pub text: Vec<u8>,
    pub name: Vec<u8>,
    pub name_line: u32,
    /// For each line the element to which it belongs, or NONE.
    pub owners: Vec<u32>,
    /// The elements of the router, by number over all routers.
    pub elements: Range<u32>,
    /// The first line of each of its elements.
    pub first_lines: Vec<u32>,
    /// The further lines of elements that have several: (element, line), in order.
    pub further_lines: Vec<(u32, u32)>,
    pub interfaces: Vec<Interface>,
    pub statics: Vec<StaticRoute>,
    pub process: Option<Process>,
    pub prefix_lists: Vec<PrefixList>,
    pub community_lists: Vec<CommunityList>,
    pub maps: Vec<RouteMap>,
    /// Its rows among the network's base rows.
    pub base: Range<u32>,
}

/// A row of a router's table of connected and static routes. Rows of a router stand in order of prefix, those of one
/// prefix connected first, then by static route.
#[derive(Clone)]
pub struct BaseRow {
    pub prefix: Prefix,
    /// The interface by which it sends, or NONE where it discards.
    pub interface: u32,
    /// The static route, or NONE of a connected row.
    pub route: u32,
    /// The next hop of a static route that doesn't discard.
    pub hop: u32,
    /// The first row of the next shorter prefix around this one, or NONE.
    pub around: u32,
}

impl BaseRow {
    #[inline]
    pub fn is_connected(&self) -> bool {
        self.route == NONE
    }

    #[inline]
    pub fn discards(&self) -> bool {
        self.interface == NONE
    }
}

/// An established session, as the router sees it that receives by it.
#[derive(Clone)]
pub struct Session {
    pub router: u32,
    pub neighbor: u32,
    pub peer: u32,
    pub peer_neighbor: u32,
    /// The interfaces from which the two sides speak.
    pub source: u32,
    pub peer_source: u32,
    pub internal: bool,
}

/// A route that a router has chosen: its own, by a network statement, or one accepted by that session.
#[derive(Clone, Copy, PartialEq, Eq)]
pub struct Chosen {
    pub path: u32,
    pub hop: u32,
    pub preference: u32,
    pub metric: u32,
    pub communities: u32,
    pub from: RouteSource,
    pub path_length: u8,
    pub origin: u8,
    pub internal: bool,
    /// Whether it is the best of several that are chosen; they stand in `Network::chosen`.
    pub several: bool,
}

/// Where a chosen route is from: number of the network statement in the router's process, or the session's number.
#[derive(Clone, Copy, PartialEq, Eq)]
pub enum RouteSource {
    Network(u16),
    Session(u16),
}

/// The rows of a main table to one prefix.
#[derive(Clone, PartialEq, Eq, Debug)]
pub enum MainRows {
    None,
    /// These base rows.
    Base(Range<u32>),
    /// All chosen routes to this prefix of BGP, which are all accepted ones.
    Chosen(u32),
}

/// By what a map let a route pass: the elements of the deciding clause, of the entry of a prefix list and of the entry of
/// a community list; NONE each where there is none (without a map all three).
#[derive(Clone, Copy, PartialEq, Eq, Debug)]
pub struct Decided {
    pub clause: u32,
    pub prefix_entry: u32,
    pub community_entry: u32,
}

/// A route that is sent by a session and accepted there.
#[derive(Clone, Copy)]
pub struct Exchange {
    /// The next hop as it was sent.
    pub hop: u32,
    pub sent_by: Decided,
    pub accepted_by: Decided,
}

/// The prefixes of BGP that cover an address, longest first. Made once for an address by `Network::covering`.
pub struct Covering {
    pub address: u32,
    pub prefixes: Vec<u32>,
}

/// A network of routers, loaded and settled.
pub struct Network {
    pub routers: Vec<Router>,
    pub element_count: u32,
    pub base: Vec<BaseRow>,
    /// In order of router and neighbor.
    pub sessions: Vec<Session>,
    /// The prefixes of all network statements, in order.
    pub prefixes: Vec<Prefix>,
    pub owners: crate::network::Owners,
    pub stable: crate::bgp::Stable,
}

// The look-ups. All of them are quick: a hash, a binary search, or an index.
//
// network.rs:
//   net.owner(address) -> Option<Place>                       the interface that is up and has the address
//   net.interface(place) -> &Interface
//   net.element_router(element) -> u32
//   router.lines_of(element) -> impl Iterator<Item = u32>     the lines of one of its elements, from 0
//   net.base_exact(router, prefix) -> Range<u32>              rows to exactly this prefix
//   net.base_longest(router, address) -> Range<u32>           rows of the longest prefix that covers it, discarding ones too
//   net.leads(router, &BaseRow, address) -> Option<Place>     where a row that doesn't discard leads with a packet for address
//   net.session_at(router, address) -> Option<u32>            the established session with the neighbor at address
//   net.prefix_number(prefix) -> Option<u32>                  its place in net.prefixes
//   net.chosen(router, prefix_number) -> &[Chosen]            best first; empty without any
//   net.main_exact(router, prefix) -> MainRows
//   net.covering(address) -> Covering
//   net.main_longest(router, &Covering) -> MainRows           rows of the longest prefix of the main table that covers it
// exchange.rs:
//   net.exchange(session, prefix_number) -> Option<Exchange>  what is sent by a session and accepted
// distances.rs:
//   let mut distances = Distances::default();                 kept by address
//   distances.reach(&net, address, router) -> u32             steps over base tables to the owner; NONE if there's no way
//   distances.to(&net, address, router) -> &ToAddress         the table of an address, complete for all routers that
//                                                             `router` leads to; .of(router) -> u32
// forms.rs:
//   sheets.mark(&net, element, letter)                        puts b'S', b'W' or b'U' in place of an element's letter and counts
