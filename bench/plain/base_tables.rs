//! The table of connected and static routes of each router.

use crate::model::*;

/// The interfaces of a router that are up, in order of prefix.
pub struct UpInterfaces {
    faces: Vec<(Prefix, u32)>,
}

impl UpInterfaces {
    pub fn of(interfaces: &[Interface]) -> Self {
        let up = (0..).zip(interfaces).filter(|(_, face)| face.is_up());
        let mut faces: Vec<(Prefix, u32)> = up.map(|(number, face)| (face.prefix(), number)).collect();
        faces.sort_unstable();
        UpInterfaces { faces }
    }

    /// Whether a prefix is another one or inside it.
    pub fn overlap(&self) -> bool {
        self.faces.windows(2).any(|pair| pair[0].0.holds(pair[1].0))
    }

    /// The interface whose prefix has the address, where no two overlap.
    #[inline]
    pub fn covering(&self, address: u32) -> Option<u32> {
        let behind = self.faces.partition_point(|(prefix, _)| prefix.address <= address);
        let (prefix, face) = self.faces[behind.checked_sub(1)?];
        prefix.covers(address).then_some(face)
    }
}

/// Which of its routes a router can use, with the interface of each: NONE of one that discards.
struct Usable<'a> {
    router: &'a Router,
    up: &'a UpInterfaces,
    /// The hop that was asked last, and the interface that leads to it.
    last: Option<(u32, Option<u32>)>,
}

impl Usable<'_> {
    fn interface_to(&mut self, hop: u32) -> Option<u32> {
        if let Some((last, found)) = self.last {
            if last == hop {
                return found;
            }
        }
        let found = self.up.covering(hop).filter(|&face| self.router.interfaces[face as usize].address != hop);
        self.last = Some((hop, found));
        found
    }

    fn interface_of(&mut self, route: &StaticRoute) -> Option<u32> {
        if route.distance == u8::MAX {
            return None;
        }
        if route.discards {
            return Some(NONE);
        }
        self.interface_to(route.hop).filter(|&face| route.interface == NONE || route.interface == face)
    }
}

/// A row before it is compared: its prefix, its place among rows of one prefix, distance and interface.
struct Candidate {
    prefix: Prefix,
    route: u32,
    interface: u32,
    distance: u8,
}

/// Appends the rows of a router.
pub fn base_rows_of(router: &Router, up: &UpInterfaces, rows: &mut Vec<BaseRow>) {
    let connected = up.faces.iter().map(|&(prefix, interface)| Candidate { prefix, route: NONE, interface, distance: 0 });
    let mut candidates: Vec<Candidate> = connected.collect();
    let mut usable = Usable { router, up, last: None };
    for (number, route) in (0..).zip(&router.statics) {
        if let Some(interface) = usable.interface_of(route) {
            candidates.push(Candidate { prefix: route.prefix, route: number, interface, distance: route.distance });
        }
    }
    candidates.sort_unstable_by_key(|row| (row.prefix, row.route.wrapping_add(1)));
    append_least(&candidates, router, rows);
}

/// Appends, of each prefix, the candidates of the least distance.
fn append_least(candidates: &[Candidate], router: &Router, rows: &mut Vec<BaseRow>) {
    let mut open: Vec<u32> = Vec::new();
    let mut rest = candidates;
    while let Some(first) = rest.first() {
        let prefix = first.prefix;
        let count = rest.iter().take_while(|row| row.prefix == prefix).count();
        let (group, behind) = rest.split_at(count);
        rest = behind;
        while open.last().is_some_and(|&around| !rows[around as usize].prefix.holds(prefix)) {
            open.pop();
        }
        let around = open.last().copied().unwrap_or(NONE);
        open.push(rows.len() as u32);
        let least = group.iter().map(|row| row.distance).min().unwrap_or(0);
        for row in group.iter().filter(|row| row.distance == least) {
            let hop = if row.route == NONE { 0 } else { router.statics[row.route as usize].hop };
            rows.push(BaseRow { prefix, interface: row.interface, route: row.route, hop, around });
        }
    }
}
