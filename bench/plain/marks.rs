//! The marks of elements: strong where an element stands in every derivation of a tested fact, weak where it stands in
//! some. Each node counts by how much it is needed: a formula of all its parts needs each of them as it is needed itself, and
//! a choice, where it is strongly needed, needs its strong set strongly and its parts weakly. So a test that is accepted or
//! taken back touches only what is needed for the first or for the last time.

use crate::graph::{Graph, Kind, Node};

/// How many tests and nodes need a node, strongly and weakly.
#[derive(Clone, Copy, Default)]
struct Needs {
    strong: u32,
    weak: u32,
}

/// A node that has come to be needed, or isn't needed any more.
#[derive(Clone, Copy)]
struct Turned {
    node: Node,
    strong: bool,
}

/// The marks of all elements, by what the tests need that count.
pub struct Marks {
    /// By node, elements first.
    needs: Vec<Needs>,
    /// Formulas whose parts aren't told yet.
    turned: Vec<Turned>,
    /// Elements whose marks may have changed.
    changed: Vec<u32>,
}

impl Marks {
    pub fn new(elements: u32) -> Marks {
        Marks { needs: vec![Needs::default(); elements as usize], turned: Vec::new(), changed: Vec::new() }
    }

    /// The letter of an element's mark.
    #[inline]
    pub fn letter(&self, element: u32) -> u8 {
        match self.needs[element as usize] {
            Needs { strong: 1.., .. } => b'S',
            Needs { weak: 1.., .. } => b'W',
            _ => b'U',
        }
    }

    /// Tells each element whose mark may have changed, some twice, with its letter, and starts anew.
    pub fn take_changes(&mut self, mut tell: impl FnMut(u32, u8)) {
        let mut changed = std::mem::take(&mut self.changed);
        for element in changed.drain(..) {
            tell(element, self.letter(element));
        }
        self.changed = changed;
    }

    /// Counts a tested node.
    pub fn add(&mut self, graph: &Graph, node: Node) {
        self.needs.resize(graph.len(), Needs::default());
        self.change::<true>(graph, node);
    }

    /// Takes back a tested node.
    pub fn remove(&mut self, graph: &Graph, node: Node) {
        self.change::<false>(graph, node);
    }

    fn change<const ADD: bool>(&mut self, graph: &Graph, node: Node) {
        self.need::<ADD>(graph, node, true);
        while let Some(Turned { node, strong }) = self.turned.pop() {
            let is_open = strong && graph.kind(node) == Kind::Choice;
            if is_open {
                for &element in graph.strong(node) {
                    self.need::<ADD>(graph, Node(element), true);
                }
            }
            for part in graph.parts(node) {
                self.need::<ADD>(graph, part.node(), strong && !is_open);
            }
        }
    }

    #[inline]
    fn need<const ADD: bool>(&mut self, graph: &Graph, node: Node, strong: bool) {
        let needs = &mut self.needs[node.0 as usize];
        let count = if strong { &mut needs.strong } else { &mut needs.weak };
        let has_turned = if ADD {
            *count += 1;
            *count == 1
        } else {
            *count -= 1;
            *count == 0
        };
        if !has_turned {
            return;
        }
        if graph.is_element(node) {
            self.changed.push(node.0);
        } else {
            self.turned.push(Turned { node, strong });
        }
    }
}
