//! The graph of facts: for each fact the formula by which it follows from others, made once. A fact that follows from one
//! other alone is that fact's node, so a node is an element, or a formula over at least two earlier nodes.

/// A node: an element by its number, or behind the elements a formula.
#[derive(Clone, Copy, PartialEq, Eq, PartialOrd, Ord, Debug)]
pub struct Node(pub u32);

/// A node in a formula, and whether it ends its alternative.
#[derive(Clone, Copy)]
pub struct Part(u32);

impl Part {
    #[inline]
    pub fn new(node: Node, ends: bool) -> Part {
        Part(node.0 << 1 | ends as u32)
    }

    #[inline]
    pub fn node(self) -> Node {
        Node(self.0 >> 1)
    }

    #[inline]
    pub fn ends(self) -> bool {
        self.0 & 1 != 0
    }

    #[inline]
    pub fn ending(self) -> Part {
        Part(self.0 | 1)
    }
}

/// What a formula asks of its parts.
#[derive(Clone, Copy, PartialEq, Eq)]
pub enum Kind {
    /// All parts.
    All,
    /// All parts of one of its alternatives, of which there are at least two.
    Choice,
}

#[derive(Clone, Copy)]
struct Formula {
    kind: Kind,
    parts: (u32, u32),
    /// Where its strong set stands among the members; the end is 0 where it wasn't worked out.
    strong: (u32, u32),
}

/// The formulas, and the strong sets of those for which they are needed: the elements that stand in every derivation.
pub struct Graph {
    elements: u32,
    formulas: Vec<Formula>,
    parts: Vec<Part>,
    /// The members of all strong sets, the first one of none.
    members: Vec<u32>,
    /// For each node the last walk that came by.
    seen: Vec<u32>,
    walk: u32,
    /// Lists for walks, kept for their room.
    pending: Vec<Node>,
    found: Vec<u32>,
}

impl Graph {
    pub fn new(elements: u32) -> Graph {
        Graph {
            elements,
            formulas: Vec::new(),
            parts: Vec::new(),
            members: vec![0],
            seen: vec![0; elements as usize],
            walk: 0,
            pending: Vec::new(),
            found: Vec::new(),
        }
    }

    /// How many nodes there are, elements and formulas.
    pub fn len(&self) -> usize {
        self.elements as usize + self.formulas.len()
    }

    #[inline]
    pub fn is_element(&self, node: Node) -> bool {
        node.0 < self.elements
    }

    #[inline]
    fn formula(&self, node: Node) -> &Formula {
        &self.formulas[(node.0 - self.elements) as usize]
    }

    #[inline]
    pub fn kind(&self, node: Node) -> Kind {
        self.formula(node).kind
    }

    /// The parts of a formula.
    #[inline]
    pub fn parts(&self, node: Node) -> &[Part] {
        let (start, end) = self.formula(node).parts;
        &self.parts[start as usize..end as usize]
    }

    /// The strong set of a choice.
    #[inline]
    pub fn strong(&self, node: Node) -> &[u32] {
        let (start, end) = self.formula(node).strong;
        &self.members[start as usize..end as usize]
    }

    /// The node that follows from all of these parts, of which there is at least one.
    pub fn all(&mut self, parts: &[Part]) -> Node {
        match parts {
            [part] => part.node(),
            _ => self.enter(Kind::All, parts),
        }
    }

    /// The node that follows from all parts of one of these alternatives.
    pub fn any(&mut self, parts: &[Part]) -> Node {
        let first = parts.iter().position(|part| part.ends()).map_or(0, |end| end + 1);
        if first == parts.len() {
            return self.all(parts);
        }
        for part in parts {
            self.have_strong(part.node());
        }
        let mut common = std::mem::take(&mut self.found);
        for part in &parts[..first] {
            common.extend_from_slice(self.strong_of(&part.node()));
        }
        self.keep_common(&parts[first..], &mut common);
        let node = self.enter(Kind::Choice, parts);
        self.keep_strong(node, common);
        node
    }

    fn enter(&mut self, kind: Kind, parts: &[Part]) -> Node {
        let node = Node(self.len() as u32);
        let start = self.parts.len() as u32;
        self.parts.extend_from_slice(parts);
        self.formulas.push(Formula { kind, parts: (start, self.parts.len() as u32), strong: (0, 0) });
        self.seen.push(0);
        node
    }

    /// Keeps of some elements those that stand in the strong sets of all these alternatives.
    fn keep_common(&mut self, parts: &[Part], common: &mut Vec<u32>) {
        self.walk += 1;
        for part in parts {
            self.see_strong(part.node());
            if part.ends() {
                let (seen, walk) = (&self.seen, self.walk);
                common.retain(|&element| seen[element as usize] == walk);
                if common.is_empty() {
                    return;
                }
                self.walk += 1;
            }
        }
    }

    /// Sees all elements of a node's strong set.
    #[inline]
    fn see_strong(&mut self, node: Node) {
        if self.is_element(node) {
            self.seen[node.0 as usize] = self.walk;
            return;
        }
        let (start, end) = self.formula(node).strong;
        for &element in &self.members[start as usize..end as usize] {
            self.seen[element as usize] = self.walk;
        }
    }

    /// The strong set of a node, where it is there.
    #[inline]
    fn strong_of<'a>(&'a self, node: &'a Node) -> &'a [u32] {
        match self.is_element(*node) {
            true => std::slice::from_ref(&node.0),
            false => self.strong(*node),
        }
    }

    /// Sees to it that a node's strong set is there.
    #[inline]
    fn have_strong(&mut self, node: Node) {
        if !self.is_element(node) && !self.has_strong(node) {
            self.find_strong(node);
        }
    }

    #[inline]
    fn has_strong(&self, node: Node) -> bool {
        self.formula(node).strong.1 != 0
    }

    /// Works out the strong set of a formula of all its parts. Choices have theirs.
    fn find_strong(&mut self, node: Node) {
        let mut found = std::mem::take(&mut self.found);
        self.walk += 1;
        self.pending.push(node);
        while let Some(node) = self.pending.pop() {
            if self.has_strong(node) {
                found.extend_from_slice(self.strong(node));
                continue;
            }
            let (start, end) = self.formula(node).parts;
            for place in start as usize..end as usize {
                let node = self.parts[place].node();
                if std::mem::replace(&mut self.seen[node.0 as usize], self.walk) == self.walk {
                    continue;
                }
                if self.is_element(node) {
                    found.push(node.0);
                } else {
                    self.pending.push(node);
                }
            }
        }
        self.keep_strong(node, found);
    }

    /// Keeps a strong set, of which some elements may be told twice.
    fn keep_strong(&mut self, node: Node, mut found: Vec<u32>) {
        let start = self.members.len() as u32;
        self.walk += 1;
        for element in found.drain(..) {
            if std::mem::replace(&mut self.seen[element as usize], self.walk) != self.walk {
                self.members.push(element);
            }
        }
        self.formulas[(node.0 - self.elements) as usize].strong = (start, self.members.len() as u32);
        self.found = found;
    }

    /// What these nodes need together: the elements and the choices to which formulas of all their parts lead, each once.
    pub fn gather(&mut self, from: &[Node], reached: &mut Vec<Node>) {
        self.walk += 1;
        let mut pending = std::mem::take(&mut self.pending);
        pending.extend_from_slice(from);
        while let Some(node) = pending.pop() {
            if std::mem::replace(&mut self.seen[node.0 as usize], self.walk) == self.walk {
                continue;
            }
            if self.is_element(node) || self.kind(node) == Kind::Choice {
                reached.push(node);
            } else {
                pending.extend(self.parts(node).iter().map(|part| part.node()));
            }
        }
        self.pending = pending;
    }
}
