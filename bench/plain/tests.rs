//! The tests of a session: what each one asks of the network, which of them count, and what one implies of another.

use crate::carriers::{Carriers, NoRoom};
use crate::facts::{Arriving, Facts};
use crate::graph::Node;
use crate::marks::Marks;
use crate::model::{BaseRow, MainRows, Network, Prefix, HOPS};
use crate::ways::{LearntRoute, Tables};

/// What a test asks of a router.
#[derive(Clone, Copy, PartialEq, Eq, Debug)]
pub enum Question {
    /// `rib NAME P`
    Rows { router: u32, prefix: Prefix },
    /// `rib NAME P via A`
    RowsVia { router: u32, prefix: Prefix, hop: u32 },
    /// `bgp NAME P`
    Routes { router: u32, prefix: Prefix },
    /// `session NAME A`
    Session { router: u32, neighbor: u32 },
    /// `reach NAME A`
    Reach { router: u32, address: u32 },
    /// `every NAME A`
    Every { router: u32, address: u32 },
}

/// Why a line about tests is refused.
#[derive(Clone, Copy, PartialEq, Eq, Debug)]
pub enum Refusal {
    /// No test has this number, or it was taken back.
    Test(u32),
    Absent,
    /// A limit, by its word: `tests`, `facts` or `diagrams`.
    Limit(&'static str),
}

/// What is told of an accepted test: its number, and how many facts all tests so far rest on.
#[derive(Clone, Copy, PartialEq, Eq, Debug)]
pub struct Accepted {
    pub number: u32,
    pub facts: u32,
}

const MOST_TESTS: usize = 4096;
const MOST_FACTS: u32 = 1 << 20;

/// An accepted test: its tested nodes among all of them, and whether it counts.
struct Test {
    nodes: (u32, u32),
    is_live: bool,
}

/// The accepted tests of a session.
pub struct Tests {
    facts: Facts,
    marks: Marks,
    carriers: Carriers,
    tests: Vec<Test>,
    tested: Vec<Node>,
}

impl Tests {
    pub fn new(net: &Network) -> Tests {
        Tests {
            facts: Facts::new(net),
            marks: Marks::new(net.element_count),
            carriers: Carriers::new(net.element_count),
            tests: Vec::new(),
            tested: Vec::new(),
        }
    }

    /// Accepts a test, if what it asks holds. One that is refused for its many facts leaves them counted all the same.
    pub fn accept(&mut self, net: &Network, question: Question) -> Result<Accepted, Refusal> {
        let start = self.tested.len();
        if self.tests.len() == MOST_TESTS {
            return Err(if self.holds(net, question) { Refusal::Limit("tests") } else { Refusal::Absent });
        }
        self.ask(net, question);
        if self.tested.len() == start {
            return Err(Refusal::Absent);
        }
        if self.facts.count > MOST_FACTS {
            self.tested.truncate(start);
            return Err(Refusal::Limit("facts"));
        }
        for &node in &self.tested[start..] {
            self.marks.add(&self.facts.graph, node);
        }
        self.tests.push(Test { nodes: (start as u32, self.tested.len() as u32), is_live: true });
        Ok(Accepted { number: self.tests.len() as u32, facts: self.facts.count })
    }

    /// Whether what a test asks holds.
    fn holds(&mut self, net: &Network, question: Question) -> bool {
        let (start, count) = (self.tested.len(), self.facts.count);
        self.ask(net, question);
        self.facts.count = count;
        let holds = self.tested.len() > start;
        self.tested.truncate(start);
        holds
    }

    /// Appends the nodes of the facts that a test asks, those that hold.
    fn ask(&mut self, net: &Network, question: Question) {
        match question {
            Question::Rows { router, prefix } => self.ask_rows(net, router, prefix, None),
            Question::RowsVia { router, prefix, hop } => self.ask_rows(net, router, prefix, Some(hop)),
            Question::Routes { router, prefix } => {
                let Some(prefix) = net.prefix_number(prefix) else { return };
                for place in 0..net.chosen(router, prefix).len() {
                    self.tested.push(self.facts.chosen(net, router, prefix, place));
                }
            }
            Question::Session { router, neighbor } => {
                if let Some(session) = net.session_at(router, neighbor) {
                    self.tested.push(self.facts.session(net, session));
                }
            }
            Question::Reach { router, address } => self.ask_packet(net, router, address, Arriving::BySome),
            Question::Every { router, address } => self.ask_packet(net, router, address, Arriving::ByEvery),
        }
    }

    fn ask_rows(&mut self, net: &Network, router: u32, prefix: Prefix, via: Option<u32>) {
        match net.main_exact(router, prefix) {
            MainRows::None => {}
            MainRows::Base(rows) => {
                let leads_via = |row: &BaseRow, hop: u32| !row.is_connected() && !row.discards() && row.hop == hop;
                let is_asked = |number: &u32| via.is_none_or(|hop| leads_via(&net.base[*number as usize], hop));
                for number in rows.filter(is_asked) {
                    self.tested.push(self.facts.main_base(net, router, number));
                }
            }
            MainRows::Chosen(prefix) => {
                let routes = net.chosen(router, prefix).iter().filter_map(|chosen| LearntRoute::of(chosen, prefix));
                for route in routes.filter(|route| via.is_none_or(|hop| hop == route.hop)) {
                    self.tested.push(self.facts.main_learnt(net, route));
                }
            }
        }
    }

    fn ask_packet(&mut self, net: &Network, router: u32, address: u32, arriving: Arriving) {
        let station = self.facts.ways.station(net, Tables::Main, address, router);
        let measured = &self.facts.ways.stations[station as usize];
        let steps = if arriving == Arriving::BySome { measured.fewest } else { measured.most };
        if steps <= HOPS {
            self.tested.push(self.facts.arrive(net, station, arriving, HOPS));
        }
    }

    /// The place of a test that counts.
    fn live(&self, number: u32) -> Result<usize, Refusal> {
        let place = (number as usize).wrapping_sub(1);
        match self.tests.get(place) {
            Some(test) if test.is_live => Ok(place),
            _ => Err(Refusal::Test(number)),
        }
    }

    fn nodes(&self, place: usize) -> &[Node] {
        let (start, end) = self.tests[place].nodes;
        &self.tested[start as usize..end as usize]
    }

    /// Takes a test back.
    pub fn forget(&mut self, number: u32) -> Result<(), Refusal> {
        let place = self.live(number)?;
        self.tests[place].is_live = false;
        let (start, end) = self.tests[place].nodes;
        for &node in &self.tested[start as usize..end as usize] {
            self.marks.remove(&self.facts.graph, node);
        }
        Ok(())
    }

    /// Whether each set that carries the first test carries the second: None if it does, else the elements that the
    /// greatest set lacks which carries the first alone, in order.
    pub fn implies(&mut self, first: u32, second: u32) -> Result<Option<Vec<u32>>, Refusal> {
        let (first, second) = (self.live(first)?, self.live(second)?);
        let (first, second) = (self.nodes(first).to_vec(), self.nodes(second).to_vec());
        let found = self.carriers.greatest_between(&mut self.facts.graph, &first, &second);
        found.map_err(|NoRoom| Refusal::Limit("diagrams"))
    }

    /// Tells each element whose mark may have changed since this was called last, with its mark as a letter, and starts
    /// anew. An element may be told twice.
    pub fn take_changes(&mut self, tell: impl FnMut(u32, u8)) {
        self.marks.take_changes(tell);
    }
}
