//! Selection by asking, from a node upwards, whether it can carry a step. Each
//! question is asked of the tree once, so that long patterns end soon.

use crate::pattern::{Axis, Pattern, Step};
use crate::tree::{Tree, ROOT};

/// A byte for each node: 1 if the pattern selects it, else 0.
pub fn answer(tree: &Tree, pattern: &Pattern) -> Vec<u8> {
    let nodes = tree.nodes().len();
    let mut questions = Questions {
        tree,
        steps: &pattern.steps,
        answers: vec![vec![None; nodes]; pattern.size()],
    };
    let last = pattern.size() - 1;
    (0..nodes)
        .map(|v| u8::from(questions.carries(last, v)))
        .collect()
}

/// The answers given so far, by step and node.
struct Questions<'a> {
    tree: &'a Tree,
    steps: &'a [Step],
    answers: Vec<Vec<Option<bool>>>,
}

impl Questions<'_> {
    /// True when some placement of the steps up to this one puts it on the node.
    fn carries(&mut self, step: usize, node: usize) -> bool {
        if let Some(known) = self.answers[step][node] {
            return known;
        }
        let found = self.asked(step, node);
        self.answers[step][node] = Some(found);
        found
    }

    /// The same, asked of the nodes above that the step's axis allows.
    fn asked(&mut self, step: usize, node: usize) -> bool {
        let tree = self.tree;
        let here = tree.node(node);
        if here.removed || !self.steps[step].agrees(here.label) {
            return false;
        }
        let mut above = tree.upward(node).skip(1);
        match self.steps[step].axis {
            Axis::Root => node == ROOT,
            Axis::Child => above.next().is_some_and(|v| self.carries(step - 1, v)),
            Axis::Descendant => above.any(|v| self.carries(step - 1, v)),
        }
    }
}

#[cfg(test)]
mod tests {
    use super::*;
    use crate::documents::{documents_of, MOST_NODES};
    use crate::numbering::Numbering;

    #[test]
    fn placing_selects_the_same() {
        let numbering = Numbering::full();
        for document in (1..=MOST_NODES).flat_map(documents_of) {
            let tree = document.linked();
            for pattern in &numbering.patterns {
                assert_eq!(answer(&tree, pattern), document.read(pattern));
            }
        }
    }
}
