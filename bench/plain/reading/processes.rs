//! The BGP process: its neighbors and networks.

use super::clauses::Clauses;
use super::links::Links;
use super::words::{whole_address, Words};
use super::Ownership;
use crate::index_table::{mix, IndexTable};
use crate::model::{Neighbor, NetworkStatement, Prefix, Process, NONE};

const MOST_PATHS: u64 = 16;
const MOST_HOPS: u64 = 255;

/// Statements of a process that aren't served, by their first words.
const NOT_SERVED: [&[u8]; 12] = [
    b"redistribute", b"distance", b"default-information", b"table-map", b"distribute-list", b"synchronization", b"auto-summary", b"template", b"scope",
    b"address-family", b"exit-address-family", b"aggregate-address",
];
const NOT_SERVED_BEHIND_BGP: [&[u8]; 6] = [b"default", b"confederation", b"dampening", b"inject-map", b"additional-paths", b"advertise-best-external"];
/// Statements of a neighbor that mean nothing here.
const PASSED_OVER: [&[u8]; 7] = [b"description", b"maximum-prefix", b"password", b"fall-over", b"timers", b"transport", b"version"];

/// A process while it is read: the source and the maps of its neighbors are the numbers of their names.
pub struct ProcessDraft {
    pub number: u32,
    pub element: u32,
    router_id: Option<u32>,
    maximum_paths: usize,
    relax: bool,
    networks: Vec<NetworkStatement>,
    network_table: IndexTable,
    neighbors: Vec<Neighbor>,
    neighbor_table: IndexTable,
}

impl ProcessDraft {
    pub fn new(number: u32, element: u32) -> Self {
        ProcessDraft {
            number,
            element,
            router_id: None,
            maximum_paths: 1,
            relax: false,
            networks: Vec::new(),
            network_table: IndexTable::default(),
            neighbors: Vec::new(),
            neighbor_table: IndexTable::default(),
        }
    }

    /// A line of the process's block; None where it isn't served.
    pub fn in_process(&mut self, words: &mut Words, links: &mut Links, clauses: &mut Clauses, lines: &mut Ownership) -> Option<()> {
        match words.next()? {
            b"neighbor" => match words.clone().next() {
                Some(_) => self.neighbor(words, links, clauses, lines),
                None => Some(()),
            },
            b"network" => self.network(words, lines),
            b"bgp" => self.bgp(words, lines),
            b"maximum-paths" => {
                self.maximum_paths = words.number(1, MOST_PATHS)? as usize;
                lines.go_on(self.element);
                words.end()
            }
            b"no" => (!matches!(words.next(), Some(b"neighbor" | b"bgp"))).then_some(()),
            first => (!NOT_SERVED.contains(&first)).then_some(()),
        }
    }

    fn bgp(&mut self, words: &mut Words, lines: &mut Ownership) -> Option<()> {
        match words.next() {
            Some(b"router-id") => self.router_id = Some(words.address()?),
            Some(b"always-compare-med") => {}
            Some(b"bestpath") => {
                (words.take(b"as-path") && words.take(b"multipath-relax")).then_some(())?;
                self.relax = true;
            }
            Some(word) if NOT_SERVED_BEHIND_BGP.contains(&word) => return None,
            _ => return Some(()),
        }
        lines.go_on(self.element);
        words.end()
    }

    fn network(&mut self, words: &mut Words, lines: &mut Ownership) -> Option<()> {
        let address = words.address()?;
        words.take(b"mask").then_some(())?;
        let length = super::words::mask_length(words.address()?)?;
        words.end()?;
        let prefix = Prefix { address, length };
        (prefix.address & !crate::model::mask_of(length) == 0).then_some(())?;
        let networks = &mut self.networks;
        let (new, hash) = (networks.len() as u32, |prefix: Prefix| mix(prefix.address as u64, prefix.length as u64));
        let found = self.network_table.find_or_insert(hash(prefix), new, |k| networks[k as usize].prefix == prefix, |k| hash(networks[k as usize].prefix));
        if found == new {
            networks.push(NetworkStatement { prefix, element: lines.begin() });
        } else {
            lines.go_on(networks[found as usize].element);
        }
        Some(())
    }

    fn neighbor(&mut self, words: &mut Words, links: &mut Links, clauses: &mut Clauses, lines: &mut Ownership) -> Option<()> {
        let address = whole_address(words.next()?)?;
        let text = words.text;
        match words.next() {
            Some(b"remote-as") => {
                let number = words.number(1, u32::MAX as u64)?;
                self.neighbor_at(address, lines).number = number;
            }
            Some(b"update-source") => {
                let name = words.next_span()?;
                self.neighbor_at(address, lines).source = links.name_number(text, name);
            }
            Some(b"ebgp-multihop") => {
                if words.clone().next().is_some() {
                    words.number(1, MOST_HOPS)?;
                }
                self.neighbor_at(address, lines).multihop = true;
            }
            Some(b"route-map") => {
                let map = clauses.map_number(text, words.next_span()?);
                match words.next()? {
                    b"in" => self.neighbor_at(address, lines).map_in = map,
                    b"out" => self.neighbor_at(address, lines).map_out = map,
                    _ => return None,
                }
            }
            Some(b"send-community") if words.clone().next() == Some(b"extended") => return Some(()),
            Some(b"send-community") => {
                let _ = words.take(b"standard") || words.take(b"both");
                self.neighbor_at(address, lines).send_community = true;
            }
            Some(b"next-hop-self") => self.neighbor_at(address, lines).next_hop_self = true,
            Some(b"shutdown") => self.neighbor_at(address, lines).shut = true,
            Some(b"activate") => drop(self.neighbor_at(address, lines)),
            Some(word) => return PASSED_OVER.contains(&word).then_some(()),
            None => return Some(()),
        }
        words.end()
    }

    /// The neighbor at an address, to which the next line belongs.
    fn neighbor_at(&mut self, address: u32, lines: &mut Ownership) -> &mut Neighbor {
        let neighbors = &mut self.neighbors;
        let (new, hash) = (neighbors.len() as u32, |address: u32| mix(address as u64, 0));
        let is_same = |k: u32| neighbors[k as usize].address == address;
        let found = self.neighbor_table.find_or_insert(hash(address), new, is_same, |k| hash(neighbors[k as usize].address));
        if found != new {
            lines.go_on(neighbors[found as usize].element);
        } else {
            neighbors.push(Neighbor {
                address,
                number: 0,
                source: NONE,
                multihop: false,
                next_hop_self: false,
                send_community: false,
                shut: false,
                map_in: NONE,
                map_out: NONE,
                element: lines.begin(),
                session: NONE,
            });
        }
        &mut neighbors[found as usize]
    }

    /// The process, its sources told by number; None where a neighbor has no number, or names what isn't there.
    pub fn into_process(mut self, links: &Links, clauses: &Clauses) -> Option<Process> {
        let defined = clauses.defined();
        for neighbor in &mut self.neighbors {
            if neighbor.source != NONE {
                neighbor.source = links.interface_of(neighbor.source)?;
            }
            let maps = [neighbor.map_in, neighbor.map_out];
            if neighbor.number == 0 || maps.iter().any(|&map| map != NONE && !defined[map as usize]) {
                return None;
            }
        }
        Some(Process {
            number: self.number,
            router_id: self.router_id,
            maximum_paths: self.maximum_paths,
            relax: self.relax,
            element: self.element,
            networks: self.networks,
            neighbors: self.neighbors,
        })
    }
}
