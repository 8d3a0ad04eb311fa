//! The tree tables that table 8 writes, and large ones of table 11 too: numbered, drawn at random, and damaged.

use crate::draws::Draws;
use crate::numbering::trees_of;
use crate::tree::{words_of, Row, ROOT};

/// The least and the greatest label of each number of digits.
pub const WIDTHS: [u16; 10] = [1, 9, 10, 99, 100, 999, 1_000, 9_999, 10_000, 65_535];

/// How the nodes of a large tree hang.
#[derive(Clone, Copy, PartialEq, Eq)]
pub enum Shape {
    /// A chain in which every label has the most digits, so that no text is longer.
    Longest,
    /// Each node below the one before it.
    Chain,
    /// Each node below the root.
    Star,
    /// Two nodes below each, level by level.
    Halves,
    /// Each node below one of the three before it.
    Near,
    /// Each node below any before it.
    Far,
}

impl Shape {
    /// The parent of node v, by one draw.
    pub fn parent(self, v: usize, draws: &mut Draws) -> usize {
        let back = draws.below(if self == Shape::Far { v.max(1) } else { 3 });
        match self {
            _ if v == ROOT => ROOT,
            Shape::Longest | Shape::Chain => v - 1,
            Shape::Star => ROOT,
            Shape::Halves => (v - 1) / 2,
            Shape::Near => (v - 1).saturating_sub(back),
            Shape::Far => back,
        }
    }
}

/// The shapes by their numbers.
pub const SHAPES: [Shape; 6] = [
    Shape::Longest,
    Shape::Chain,
    Shape::Star,
    Shape::Halves,
    Shape::Near,
    Shape::Far,
];

/// How many nodes large trees have: multiples of 128, up to the limit.
pub const LARGE_SIZES: [usize; 8] = [128, 256, 384, 512, 640, 768, 896, 1_024];

/// The shape that is damaged.
const DAMAGED_SHAPE: usize = 4;

/// How many nodes it has, one more than may be written.
const DAMAGED_NODES: usize = 1_025;

/// Nodes that are damaged lie so far apart, from the first to the last that may be written.
const APART: usize = 341;

/// How many of them there are.
const PLACES: usize = 4;

/// All trees of so many nodes with these labels, in rising code.
pub fn with_labels(nodes: usize, labels: &[u16]) -> impl Iterator<Item = Vec<u16>> + '_ {
    trees_of(nodes, labels.len()).map(|table| {
        let named = |row: Row| Row {
            label: labels[usize::from(row.label) - 1],
            ..row
        };
        words_of(&table.into_iter().map(named).collect::<Vec<Row>>())
    })
}

/// All trees of so many nodes in which node v has label v + 1, in rising code.
pub fn shapes(nodes: usize) -> impl Iterator<Item = Vec<u16>> {
    trees_of(nodes, 1).map(|mut table| {
        for (label, row) in (1..).zip(&mut table) {
            row.label = label;
        }
        words_of(&table)
    })
}

/// The tree of a shape with so many nodes.
pub fn large(shape: usize, nodes: usize) -> Vec<u16> {
    let mut draws = Draws::from_state(1000 * shape + nodes);
    let table: Vec<Row> = (0..nodes)
        .map(|v| row(SHAPES[shape], v, &mut draws))
        .collect();
    words_of(&table)
}

/// Node v, by three draws.
fn row(shape: Shape, v: usize, draws: &mut Draws) -> Row {
    let parent = shape.parent(v, draws);
    let most = [9, 99, 999, 9_999, 65_535][draws.below(5)];
    let drawn = 1 + draws.below(most) as u16;
    let label = match shape {
        Shape::Longest => u16::MAX,
        _ => drawn,
    };
    Row { parent, label }
}

/// The first words of a large tree with no, one or two damages: a parent that is
/// the node's own number, or 1 at the root, and a label that is 0. The place of
/// the parent changes fastest.
pub fn damaged(words: usize) -> impl Iterator<Item = Vec<u16>> {
    let places = || (0..PLACES).map(|i| Some(APART * i)).chain([None]);
    let pairs = places().flat_map(move |label| places().map(move |parent| (parent, label)));
    pairs.map(move |(parent, label)| {
        let mut table = large(DAMAGED_SHAPE, DAMAGED_NODES);
        if let Some(v) = parent {
            table[2 * v] = v.max(1) as u16;
        }
        if let Some(v) = label {
            table[2 * v + 1] = 0;
        }
        table.truncate(words);
        table
    })
}

#[cfg(test)]
mod tests {
    use super::*;
    use crate::tree::{rows_of, Tree};
    use std::collections::HashSet;

    #[test]
    fn shapes_have_a_label_of_its_own_for_each_node() {
        let found: Vec<Vec<u16>> = (1..=3).flat_map(shapes).collect();
        let expected: [&[u16]; 4] = [
            &[0, 1],
            &[0, 1, 0, 2],
            &[0, 1, 0, 2, 0, 3],
            &[0, 1, 0, 2, 1, 3],
        ];
        assert_eq!(found, expected);
    }

    #[test]
    fn labels_stand_in_for_their_numbers() {
        let found: Vec<Vec<u16>> = with_labels(2, &[5, 10]).collect();
        assert_eq!(
            found,
            [[0, 5, 0, 5], [0, 10, 0, 5], [0, 5, 0, 10], [0, 10, 0, 10]]
        );
    }

    #[test]
    fn large_trees_hang_as_their_shapes_say() {
        let depth = |shape: usize| {
            let tree = Tree::linked(&rows_of(&large(shape, 256)));
            (0..256).map(|v| tree.upward(v).count()).max().unwrap()
        };
        assert_eq!([0, 1, 2, 3].map(depth), [256, 256, 2, 9]);
        assert!((64..192).contains(&depth(4)));
        assert!((8..32).contains(&depth(5)));
    }

    #[test]
    fn drawn_labels_have_every_width() {
        for shape in 1..SHAPES.len() {
            let labels = rows_of(&large(shape, 256)).into_iter().map(|row| row.label);
            let widths: HashSet<usize> = labels.map(|label| label.to_string().len()).collect();
            assert_eq!(widths, HashSet::from([1, 2, 3, 4, 5]));
        }
    }

    #[test]
    fn damages_are_within_the_words() {
        let tables: Vec<Vec<u16>> = damaged(2_048).collect();
        assert_eq!(tables.len(), 25);
        assert_eq!(tables[24], large(4, 1_025)[..2_048]);
        assert_eq!(tables[0][..2], [1, 0]);
        assert_eq!((tables[3][2_046], tables[3][1]), (1_023, 0));
        assert_eq!(damaged(0).last(), Some(Vec::new()));
    }
}
