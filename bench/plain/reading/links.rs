//! Interfaces and static routes.

use super::names::NameTable;
use super::words::{address_at, mask_length, whole_address, whole_number, word_end, Words};
use super::Ownership;
use crate::index_table::{mix, IndexTable};
use crate::model::{Interface, Prefix, Span, StaticRoute, NONE};

/// What was read of interfaces and static routes so far. The names of interfaces have numbers of their own, for they may
/// be named before they are opened.
#[derive(Default)]
pub struct Links {
    names: NameTable,
    /// The interface of each name, or NONE.
    of_name: Vec<u32>,
    interfaces: Vec<Interface>,
    /// The interface that a route names is the number of its name here.
    statics: Vec<StaticRoute>,
    static_table: IndexTable,
}

fn hash_of(route: &StaticRoute) -> u64 {
    let rest = (route.interface as u64) << 8 | (route.prefix.length as u64) << 1 | route.discards as u64;
    mix((route.prefix.address as u64) << 32 | route.hop as u64, rest)
}

fn is_same(one: &StaticRoute, other: &StaticRoute) -> bool {
    one.prefix == other.prefix && one.hop == other.hop && one.interface == other.interface && one.discards == other.discards
}

impl Links {
    /// The number of an interface's name.
    pub fn name_number(&mut self, text: &[u8], name: Span) -> u32 {
        let number = self.names.number(text, name);
        if self.of_name.len() < self.names.count() {
            self.of_name.push(NONE);
        }
        number
    }

    /// The interface of a name's number, if a line opens it.
    pub fn interface_of(&self, name: u32) -> Option<u32> {
        self.of_name.get(name as usize).copied().filter(|&interface| interface != NONE)
    }

    /// The interface of this name, whose block the next line opens.
    pub fn open(&mut self, text: &[u8], name: Span, lines: &mut Ownership) -> u32 {
        let number = self.name_number(text, name) as usize;
        let known = self.of_name[number];
        if known != NONE {
            lines.go_on(self.interfaces[known as usize].element);
            return known;
        }
        let interface = self.interfaces.len() as u32;
        self.of_name[number] = interface;
        self.interfaces.push(Interface { name, address: 0, length: 0, shut: false, address_line: 0, element: lines.begin() });
        interface
    }

    /// `interface NAME` from the name on: the interface and the place behind the line.
    #[inline]
    pub fn usual_interface(&mut self, text: &[u8], at: usize, lines: &mut Ownership) -> Option<(u32, usize)> {
        let end = word_end(text, at);
        if end == at || text.get(end) != Some(&b'\n') {
            return None;
        }
        let interface = self.open(text, Span { start: at as u32, end: end as u32 }, lines);
        Some((interface, end + 1))
    }

    /// A line of an interface's block, with one blank before it, in its usual form.
    #[inline]
    pub fn usual_in_interface(&mut self, text: &[u8], interface: u32, at: usize, lines: &mut Ownership) -> Option<usize> {
        let rest = &text[at..];
        let interface = &mut self.interfaces[interface as usize];
        let length = if rest.starts_with(b" ip address ") {
            let (address, blank) = address_at(text, at + 12)?;
            let (mask, end) = address_at(text, blank + 1)?;
            let length = mask_length(mask).filter(|&length| length > 0)?;
            if text[blank] != b' ' || text.get(end) != Some(&b'\n') {
                return None;
            }
            interface.set_address(address, length, lines.next_line());
            end + 1 - at
        } else if rest.starts_with(b" no ip address\n") {
            interface.set_address(0, 0, 0);
            15
        } else if rest.starts_with(b" shutdown\n") {
            interface.shut = true;
            10
        } else {
            return None;
        };
        lines.go_on(interface.element);
        Some(at + length)
    }

    /// A line of an interface's block; None where it isn't served.
    pub fn in_interface(&mut self, interface: u32, words: &mut Words, lines: &mut Ownership) -> Option<()> {
        let interface = &mut self.interfaces[interface as usize];
        match words.next()? {
            b"ip" => match words.next() {
                Some(b"address") => {
                    let (address, length) = (words.address()?, mask_length(words.address()?)?);
                    words.end()?;
                    interface.set_address(address, length, lines.next_line());
                    lines.go_on(interface.element);
                    (length > 0).then_some(())
                }
                Some(b"unnumbered" | b"vrf" | b"policy" | b"nat" | b"access-group") => None,
                _ => Some(()),
            },
            b"no" if words.take(b"shutdown") => {
                interface.shut = false;
                lines.go_on(interface.element);
                words.end()
            }
            b"no" if words.take(b"ip") && words.take(b"address") => {
                interface.set_address(0, 0, 0);
                lines.go_on(interface.element);
                words.end()
            }
            b"shutdown" => {
                interface.shut = true;
                lines.go_on(interface.element);
                words.end()
            }
            b"vrf" => (!words.take(b"forwarding")).then_some(()),
            _ => Some(()),
        }
    }

    /// `ip route P M A` or `ip route P M Null0` from the prefix on; the place behind the line.
    #[inline]
    pub fn usual_route(&mut self, text: &[u8], at: usize, lines: &mut Ownership) -> Option<usize> {
        let (address, blank) = address_at(text, at)?;
        let (mask, second) = address_at(text, blank + 1)?;
        let length = mask_length(mask)?;
        if text[blank] != b' ' || text.get(second) != Some(&b' ') || address & !mask != 0 {
            return None;
        }
        let (hop, discards, end) = match address_at(text, second + 1) {
            Some((hop, end)) => (hop, false, end),
            None if text[second + 1..].starts_with(b"Null0") => (0, true, second + 6),
            None => return None,
        };
        if text.get(end) != Some(&b'\n') {
            return None;
        }
        let prefix = Prefix { address, length };
        self.add_route(StaticRoute { prefix, distance: 1, discards, interface: NONE, hop, element: NONE }, lines);
        Some(end + 1)
    }

    /// `ip route ..` behind these words; None where it isn't served.
    pub fn route(&mut self, words: &mut Words, lines: &mut Ownership) -> Option<()> {
        let prefix = words.prefix()?;
        let first = words.next_span()?;
        let mut further = words.clone();
        let mut route = StaticRoute { prefix, distance: 1, discards: false, interface: NONE, hop: 0, element: NONE };
        if let Some(hop) = further.next().and_then(whole_address) {
            route.interface = self.name_number(words.text, first);
            route.hop = hop;
            *words = further;
        } else if words.bytes(first) == b"Null0" {
            route.discards = true;
        } else {
            route.hop = whole_address(words.bytes(first))?;
        }
        route.distance = options(words)?;
        self.add_route(route, lines);
        Some(())
    }

    /// The next line says this route, for the first time or again.
    #[inline]
    fn add_route(&mut self, mut route: StaticRoute, lines: &mut Ownership) {
        let Links { statics, static_table, .. } = self;
        let new = statics.len() as u32;
        let found = static_table.find_or_insert(hash_of(&route), new, |k| is_same(&statics[k as usize], &route), |k| hash_of(&statics[k as usize]));
        if found == new {
            route.element = lines.begin();
            statics.push(route);
        } else {
            lines.go_on(statics[found as usize].element);
            statics[found as usize].distance = route.distance;
        }
    }

    /// The interfaces and the static routes, whose interfaces are now told by number; None where one isn't opened.
    pub fn into_parts(mut self) -> Option<(Vec<Interface>, Vec<StaticRoute>)> {
        let of_name = &self.of_name;
        for route in self.statics.iter_mut().filter(|route| route.interface != NONE) {
            route.interface = of_name[route.interface as usize];
            if route.interface == NONE {
                return None;
            }
        }
        self.interfaces.shrink_to_fit();
        self.statics.shrink_to_fit();
        Some((self.interfaces, self.statics))
    }
}

/// The distance, and `name W` and `tag N` behind it in either order, each at most once.
fn options(words: &mut Words) -> Option<u8> {
    let mut distance = 1;
    let mut further = words.clone();
    if let Some(value) = further.next().and_then(whole_number).filter(|value| (1..=255).contains(value)) {
        distance = value as u8;
        *words = further;
    }
    let (mut name, mut tag) = (false, false);
    while let Some(option) = words.next() {
        let value = words.next()?;
        match option {
            b"name" if !name => name = true,
            b"tag" if !tag && whole_number(value).is_some() => tag = true,
            _ => return None,
        }
    }
    Some(distance)
}

impl Interface {
    #[inline]
    fn set_address(&mut self, address: u32, length: u8, line: u32) {
        (self.address, self.length, self.address_line) = (address, length, line);
    }
}
