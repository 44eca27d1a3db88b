//! What is known of each session before any route goes over it, so that a message is made and judged quickly.

use crate::model::*;
use crate::paths::{Bit, CommunitySets, Paths};
use crate::policy::Policies;

const PLAIN_PREFERENCE: u32 = 100;

/// A session as a way of routes from the peer to the router.
pub struct Link {
    pub router: u32,
    pub peer: u32,
    /// The number of the peer's system, and the place of the router's own among the systems of paths.
    pub peer_system: u32,
    pub own_system: Bit,
    /// The address of the peer's source, and whether a next hop there is taken.
    pub hop: u32,
    pub hop_is_taken: bool,
    pub internal: bool,
    pub next_hop_self: bool,
    pub send_community: bool,
    /// The maps of the peer for what goes out and of the router for what comes in, by number in `Policies`, or NONE.
    pub map_out: u32,
    pub map_in: u32,
    /// Preferences up to this one may come out, whatever comes in.
    pub preference: u32,
    /// The place of the session where all else of two routes is the same: internal ones last, then by router id and address.
    pub order: u32,
    /// Whether the router uses several routes side by side.
    pub several: bool,
}

/// Whether a router takes a route with this next hop, as far as base tables tell.
pub fn is_taken(network: &Network, router: u32, hop: u32) -> bool {
    network.owner(hop).is_none_or(|place| place.router != router) && network.has_hit(router, hop)
}

/// The router id: the one that is set, else the highest address of a loopback that is up, else of any interface that is up.
fn router_id(router: &Router) -> u32 {
    if let Some(id) = router.process.as_ref().and_then(|process| process.router_id) {
        return id;
    }
    let is_loopback = |face: &Interface| router.text[face.name.start as usize..face.name.end as usize].starts_with(b"Loopback");
    let up = || router.interfaces.iter().filter(|face| face.is_up());
    let loopback = up().filter(|face| is_loopback(face)).map(|face| face.address).max();
    loopback.or_else(|| up().map(|face| face.address).max()).unwrap_or(0)
}

/// The links of all sessions, in their order.
pub fn links_of(network: &Network, paths: &Paths, policies: &mut Policies, sets: &mut CommunitySets) -> Vec<Link> {
    let mut links: Vec<Link> = network.sessions.iter().filter_map(|session| link_of(network, session, paths, policies, sets)).collect();
    let ids: Vec<u32> = network.routers.iter().map(router_id).collect();
    let mut order: Vec<usize> = (0..links.len()).collect();
    order.sort_unstable_by_key(|&k| {
        let address = network.interface(Place { router: links[k].peer, interface: network.sessions[k].peer_source }).address;
        (links[k].internal, ids[links[k].peer as usize], address)
    });
    for (place, k) in (0..).zip(order) {
        links[k].order = place;
    }
    links
}

fn link_of(network: &Network, session: &Session, paths: &Paths, policies: &mut Policies, sets: &mut CommunitySets) -> Option<Link> {
    let process = network.routers[session.router as usize].process.as_ref()?;
    let peer = network.routers[session.peer as usize].process.as_ref()?;
    let (own, other) = (&process.neighbors[session.neighbor as usize], &peer.neighbors[session.peer_neighbor as usize]);
    let hop = network.interface(Place { router: session.peer, interface: session.peer_source }).address;
    let map_out = policies.number(network, session.peer, other.map_out, sets);
    let map_in = policies.number(network, session.router, own.map_in, sets);
    let outer = if session.internal { policies.preference(map_out) } else { PLAIN_PREFERENCE };
    Some(Link {
        router: session.router,
        peer: session.peer,
        peer_system: peer.number,
        own_system: paths.bit(process.number),
        hop,
        hop_is_taken: is_taken(network, session.router, hop),
        internal: session.internal,
        next_hop_self: other.next_hop_self,
        send_community: other.send_community,
        map_out,
        map_in,
        preference: outer.max(policies.preference(map_in)),
        order: 0,
        several: process.maximum_paths > 1,
    })
}
