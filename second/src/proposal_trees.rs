//! The larger trees that table 10 proposes, and patterns along ways up in them.

use crate::draws::Draws;
use crate::long_reads::{along, LABELS};
use crate::pattern::{Axis, Pattern};
use crate::tag_trees::SHAPES;
use crate::tree::{rows_of, words_of, Row, Tree};

/// The label of a node without a mark.
const PLAIN: u16 = 1;

/// A read along a way of more steps than this has larger trees.
const LONG: usize = 32;

/// The drawn tree of a shape with so many nodes.
pub fn drawn(shape: usize, nodes: usize) -> Vec<u16> {
    let mut draws = Draws::from_state(1000 * shape + nodes);
    let row = |v| Row {
        parent: SHAPES[shape].parent(v, &mut draws),
        label: LABELS[draws.below(LABELS.len())],
    };
    words_of(&(0..nodes).map(row).collect::<Vec<Row>>())
}

/// The same tree with one label at one node and another at all others.
pub fn marked(shape: usize, nodes: usize, node: usize, label: u16) -> Vec<u16> {
    let mut words = drawn(shape, nodes);
    for v in 0..nodes {
        words[2 * v + 1] = if v == node { label } else { PLAIN };
    }
    words
}

/// A case along ways: a read, an update and the two trees.
pub struct Ways {
    pub read: Vec<u16>,
    pub points: Vec<u16>,
    pub inserted: Vec<u16>,
    pub tree: Vec<u16>,
}

/// What all numbers of a case are drawn by.
#[derive(Clone, Copy)]
pub struct Case {
    pub shape: usize,
    pub steps: usize,
    pub number: usize,
}

impl Case {
    /// Long reads have larger trees: this many times as many nodes.
    fn scale(self) -> usize {
        if self.steps > LONG {
            4
        } else {
            1
        }
    }

    /// The nodes of the proposed tree.
    fn nodes(self) -> usize {
        self.scale() * 16 * (self.number + 1)
    }

    /// The proposed tree.
    fn tree(self) -> Vec<u16> {
        drawn(self.shape, self.nodes())
    }

    /// The inserted tree, which gets smaller. It is deep where the proposed one is.
    fn inserted(self) -> Vec<u16> {
        let shape = [4, 3, 2, 1, 5][self.shape - 1];
        drawn(shape, self.scale() * (256 - 15 * self.number))
    }

    /// The row of numbers that one of its three ways is drawn from.
    fn draws(self, way: usize) -> Draws {
        Draws::from_state(10_000 * way + 1000 * self.steps + 100 * self.shape + self.number)
    }

    /// The steps of the update's pattern.
    fn update_steps(self) -> usize {
        2 + self.number % 3
    }

    /// A read and a delete, along ways up from two nodes of the tree.
    pub fn delete(self) -> Ways {
        let tree = self.tree();
        let linked = Tree::linked(&rows_of(&tree));
        let way = |way: usize, steps: usize| {
            let mut draws = self.draws(way);
            let node = 1 + draws.below(self.nodes() - 1);
            plain_along(&linked, steps, node, &mut draws).words()
        };
        Ways {
            read: way(0, self.steps),
            points: way(1, self.update_steps()),
            inserted: Vec::new(),
            tree,
        }
    }

    /// A read and an insert. The read goes up from a node of the inserted tree and on
    /// from a node of the tree, from which the update goes up too.
    pub fn insert(self) -> Ways {
        let (tree, inserted) = (self.tree(), self.inserted());
        let linked = Tree::linked(&rows_of(&tree));
        let mut draws = self.draws(0);
        let node = 1 + draws.below(self.nodes() - 1);
        let mut read = plain_along(&linked, self.steps, node, &mut draws);
        let mut draws = self.draws(2);
        let low = draws.below(inserted.len() / 2);
        let below = Tree::linked(&rows_of(&inserted));
        let mut entering = plain_along(&below, self.steps, low, &mut draws);
        entering.steps[0].axis = [Axis::Child, Axis::Descendant][self.number % 2];
        read.steps.append(&mut entering.steps);
        let mut draws = self.draws(1);
        draws.below(1);
        let points = plain_along(&linked, self.update_steps(), node, &mut draws);
        Ways {
            read: read.words(),
            points: points.words(),
            inserted,
            tree,
        }
    }
}

/// A pattern along a way up, in which no step has a label of its own.
fn plain_along(tree: &Tree, steps: usize, node: usize, draws: &mut Draws) -> Pattern {
    along(tree, steps, steps, node, draws)
}
