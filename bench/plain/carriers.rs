//! Which sets of elements carry a fact: the diagrams of formulas, kept for the session.

use crate::diagram::{Diagrams, FALSE, FULL, TRUE};
use crate::graph::{Graph, Node, Part};

/// There is no room for the diagrams of a question.
pub struct NoRoom;

/// The diagrams of a session's questions.
pub struct Carriers {
    diagrams: Diagrams,
    /// The diagrams of choices, by node behind the elements; FALSE where none was made.
    of_formula: Vec<u32>,
    /// The choices that have got a diagram by the question that is asked.
    made: Vec<u32>,
    elements: u32,
}

impl Carriers {
    pub fn new(elements: u32) -> Carriers {
        Carriers { diagrams: Diagrams::new(), of_formula: Vec::new(), made: Vec::new(), elements }
    }

    /// The greatest set that carries all of the first nodes and not all of the second, by the elements that it lacks.
    pub fn greatest_between(&mut self, graph: &mut Graph, first: &[Node], second: &[Node]) -> Result<Option<Vec<u32>>, NoRoom> {
        let count = self.diagrams.len();
        self.of_formula.resize(graph.len() - self.elements as usize, FALSE);
        self.made.clear();
        let one = self.of_all(graph, first);
        let other = if one == FULL { FULL } else { self.of_all(graph, second) };
        if other == FULL {
            self.take_back(count);
            return Err(NoRoom);
        }
        Ok(self.diagrams.greatest_between(one, other))
    }

    /// A question without room changes nothing: what it made is taken back.
    fn take_back(&mut self, count: usize) {
        self.diagrams.cut_back(count);
        for &formula in &self.made {
            self.of_formula[formula as usize] = FALSE;
        }
    }

    /// The sets that carry all of these nodes, or FULL.
    fn of_all(&mut self, graph: &mut Graph, nodes: &[Node]) -> u32 {
        let mut reached = Vec::new();
        graph.gather(nodes, &mut reached);
        reached.sort_unstable();
        let (elements, choices) = reached.split_at(reached.partition_point(|&node| graph.is_element(node)));
        let mut made = TRUE;
        for &choice in choices {
            let of_choice = self.of_choice(graph, choice);
            if of_choice == FULL {
                return FULL;
            }
            made = self.diagrams.both(made, of_choice);
            if made == FULL {
                return FULL;
            }
        }
        let needed: Vec<u32> = elements.iter().map(|node| node.0).collect();
        let of_elements = self.diagrams.all_of(&needed);
        if of_elements == FULL {
            return FULL;
        }
        self.diagrams.both(of_elements, made)
    }

    /// The sets that carry a choice, or FULL.
    fn of_choice(&mut self, graph: &mut Graph, choice: Node) -> u32 {
        let formula = (choice.0 - self.elements) as usize;
        if self.of_formula[formula] != FALSE {
            return self.of_formula[formula];
        }
        let parts: Vec<Part> = graph.parts(choice).to_vec();
        let mut made = FALSE;
        for alternative in parts.split_inclusive(|part| part.ends()) {
            let nodes: Vec<Node> = alternative.iter().map(|part| part.node()).collect();
            let of_alternative = self.of_all(graph, &nodes);
            if of_alternative == FULL {
                return FULL;
            }
            made = self.diagrams.either(made, of_alternative);
            if made == FULL {
                return FULL;
            }
        }
        self.of_formula[formula] = made;
        self.made.push(formula as u32);
        made
    }
}

#[cfg(test)]
mod tests {
    use super::*;
    use crate::marks::Marks;

    const ELEMENTS: u32 = 9;
    const EACH: u32 = (1 << ELEMENTS) - 1;

    struct Dice(u64);

    impl Dice {
        fn below(&mut self, count: u64) -> usize {
            self.0 = self.0.wrapping_mul(0x5851_f42d_4c95_7f2d).wrapping_add(0x1405_7b7e_f767_814f);
            ((self.0 >> 33) % count) as usize
        }
    }

    /// Formulas with up to four alternatives, all over earlier nodes; of each the sets that fulfil it, by number.
    fn some_formulas(dice: &mut Dice, graph: &mut Graph) -> Vec<(Node, Vec<bool>)> {
        let having = |k: u32| (0..=EACH).map(|set| set >> k & 1 != 0).collect();
        let mut made: Vec<(Node, Vec<bool>)> = (0..ELEMENTS).map(|k| (Node(k), having(k))).collect();
        for _ in 0..10 {
            let (mut parts, mut fulfilled) = (Vec::new(), vec![false; EACH as usize + 1]);
            for _ in 0..=dice.below(4) {
                let chosen: Vec<usize> = (0..=dice.below(3)).map(|_| dice.below(made.len() as u64)).collect();
                parts.extend(chosen.iter().map(|&k| Part::new(made[k].0, false)));
                let last = parts.len() - 1;
                parts[last] = parts[last].ending();
                (0..=EACH as usize).for_each(|set| fulfilled[set] |= chosen.iter().all(|&k| made[k].1[set]));
            }
            made.push((graph.any(&parts), fulfilled));
        }
        made
    }

    #[test]
    fn greatest_sets_are_those_of_all_sets() {
        let mut dice = Dice(1);
        for _ in 0..500 {
            let mut graph = Graph::new(ELEMENTS);
            let made = some_formulas(&mut dice, &mut graph);
            let mut carriers = Carriers::new(ELEMENTS);
            for _ in 0..8 {
                let (one, other) = (&made[dice.below(made.len() as u64)], &made[dice.below(made.len() as u64)]);
                let between = (0..=EACH).filter(|&set| one.1[set as usize] && !other.1[set as usize]);
                let greatest = between.max_by_key(|set| set.reverse_bits());
                let lacked = greatest.map(|set| (0..ELEMENTS).filter(|k| set >> k & 1 == 0).collect::<Vec<_>>());
                assert!(carriers.greatest_between(&mut graph, &[one.0], &[other.0]).is_ok_and(|found| found == lacked));
            }
        }
    }

    #[test]
    fn strong_elements_are_those_that_cannot_be_lost() {
        let mut dice = Dice(2);
        for _ in 0..500 {
            let mut graph = Graph::new(ELEMENTS);
            let made = some_formulas(&mut dice, &mut graph);
            let (mut marks, mut tested) = (Marks::new(ELEMENTS), Vec::new());
            for _ in 0..10 {
                if tested.is_empty() || dice.below(3) > 0 {
                    tested.push(dice.below(made.len() as u64));
                    marks.add(&graph, made[tested[tested.len() - 1]].0);
                } else {
                    let taken = tested.swap_remove(dice.below(tested.len() as u64));
                    marks.remove(&graph, made[taken].0);
                }
                for element in 0..ELEMENTS {
                    let is_strong = tested.iter().any(|&k| !made[k].1[(EACH & !(1 << element)) as usize]);
                    assert_eq!(marks.letter(element) == b'S', is_strong);
                }
            }
        }
    }
}
