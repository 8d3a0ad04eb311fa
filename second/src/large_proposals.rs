//! Table 10, larger trees: with one marked node, and drawn, with patterns along ways up.

use crate::evidence;
use crate::proposal_trees::{marked, Case};
use crate::proposals::Answer;
use std::io::{self, Write};

/// The shapes of larger trees, by the numbers that table 8 gives them.
const SHAPES: [usize; 5] = [1, 2, 3, 4, 5];

/// Nodes of a tree with a marked node, and of an inserted one.
const MARKED: [(usize, usize); 5] = [(2, 1_024), (16, 256), (17, 256), (1_024, 1), (1_024, 64)];

/// Nodes of a tree with a marked node from which others are deleted.
const MARKED_FOR_DELETE: [usize; 3] = [2, 17, 1_024];

/// The label of the marked node of a tree.
const MARK: u16 = 2;

/// The label of the marked node of an inserted tree.
const INSERTED_MARK: u16 = 3;

/// Any node below the root.
const ANY: [u16; 4] = [0, 0, 2, 0];

/// The marked node of a tree.
const TO_MARK: [u16; 4] = [0, 0, 2, MARK];

/// The marked node of an inserted tree below that of a tree.
const TO_BOTH: [u16; 6] = [0, 0, 2, MARK, 2, INSERTED_MARK];

/// Nodes without a mark.
const UNMARKED: [u16; 4] = [0, 0, 2, 1];

/// Steps of the ways that reads are drawn along.
const LENGTHS: [usize; 4] = [2, 4, 32, 127];

/// How many cases there are along ways, of one shape and one number of steps.
const CASES: usize = 16;

/// Writes the lines of larger trees; gives the number of calls with a marked node and
/// along ways.
pub fn write(out: &mut dyn Write) -> io::Result<(usize, usize)> {
    let (mut marked, mut along) = (0, 0);
    for shape in SHAPES {
        marked += write_marked(out, shape)?;
        along += write_along(out, shape)?;
    }
    Ok((marked, along))
}

/// Lines of trees of a shape with a marked node; gives the number of calls.
fn write_marked(out: &mut dyn Write, shape: usize) -> io::Result<usize> {
    let mut calls = 0;
    for (nodes, inserted) in MARKED {
        let name = format!("marked-insert {shape} {nodes} {inserted}");
        calls += write_answers(out, &name, marked_inserts(shape, nodes, inserted))?;
    }
    for nodes in MARKED_FOR_DELETE {
        let name = format!("marked-delete {shape} {nodes}");
        calls += write_answers(out, &name, marked_deletes(shape, nodes))?;
    }
    Ok(calls)
}

/// Every node below the root is an update point, and the read goes from the marked
/// node of the tree to that of a copy; the latter changes fastest.
fn marked_inserts(shape: usize, nodes: usize, inserted: usize) -> Vec<Answer> {
    let copied = [0, inserted / 2, inserted - 1].map(|node| (inserted, node, INSERTED_MARK));
    let trees = lower_nodes(nodes).map(|node| (nodes, node, MARK));
    let of = |(size, node, label)| marked(shape, size, node, label);
    let answers = trees
        .into_iter()
        .flat_map(|t| copied.map(|x| evidence::insert(&TO_BOTH, &ANY, &of(x), &of(t))));
    answers.collect()
}

/// Every node below the root without a mark is deleted, and the marked one is read.
fn marked_deletes(shape: usize, nodes: usize) -> Vec<Answer> {
    let trees = lower_nodes(nodes).map(|node| marked(shape, nodes, node, MARK));
    trees
        .map(|t| evidence::delete(&TO_MARK, &UNMARKED, &t))
        .to_vec()
}

/// The first node below the root, one half way, and the last.
fn lower_nodes(nodes: usize) -> [usize; 3] {
    [1, nodes / 2, nodes - 1]
}

/// Lines of drawn trees of a shape, with patterns along ways up; gives the number of
/// calls.
fn write_along(out: &mut dyn Write, shape: usize) -> io::Result<usize> {
    let mut calls = 0;
    for steps in LENGTHS {
        let cases = (0..CASES).map(|number| Case {
            shape,
            steps,
            number,
        });
        let deletes = cases.clone().map(Case::delete);
        let answers = deletes.map(|w| evidence::delete(&w.read, &w.points, &w.tree));
        let name = format!("way-delete {shape} {steps}");
        calls += write_answers(out, &name, answers.collect())?;
        let inserts = cases.map(Case::insert);
        let answers = inserts.map(|w| evidence::insert(&w.read, &w.points, &w.inserted, &w.tree));
        let name = format!("way-insert {shape} {steps}");
        calls += write_answers(out, &name, answers.collect())?;
    }
    Ok(calls)
}

/// Writes a line of nodes' numbers; gives how many. Nothing here is refused.
fn write_answers(out: &mut dyn Write, name: &str, answers: Vec<Answer>) -> io::Result<usize> {
    let number = |answer: &Answer| answer.map_or("?".to_string(), |node| node.to_string());
    let numbers: Vec<String> = answers.iter().map(number).collect();
    writeln!(out, "{name} {}", numbers.join(" "))?;
    Ok(numbers.len())
}

#[cfg(test)]
mod tests {
    use super::*;
    use crate::proposal_trees::Ways;

    #[test]
    fn the_first_new_node_is_the_marked_one_of_the_marked_nodes_copy() {
        for shape in SHAPES {
            for (nodes, inserted) in MARKED {
                let places = [0, inserted / 2, inserted - 1];
                let copies = lower_nodes(nodes).map(|node| nodes + (node - 1) * inserted);
                let expected = copies.iter().flat_map(|copy| places.map(|k| Ok(copy + k)));
                let found = marked_inserts(shape, nodes, inserted);
                assert_eq!(found, expected.collect::<Vec<Answer>>());
            }
        }
    }

    #[test]
    fn the_last_of_all_numbers_is_reached() {
        assert_eq!(marked_inserts(2, 1_024, 64)[8], Ok(66_495));
    }

    #[test]
    fn a_marked_node_is_lost_below_another_that_is_not_the_root() {
        assert_eq!(marked_deletes(1, 17), [Ok(0), Ok(8), Ok(16)]);
        assert_eq!(marked_deletes(2, 17), [Ok(0), Ok(0), Ok(0)]);
    }

    #[test]
    fn along_ways_some_of_the_longest_reads_find_a_node() {
        let cases = (0..CASES).map(|number| Case {
            shape: 4,
            steps: 127,
            number,
        });
        let ways: Vec<_> = cases.map(Case::insert).collect();
        assert!(ways.iter().all(|w| w.read.len() == 508));
        let answer = |w: &Ways| evidence::insert(&w.read, &w.points, &w.inserted, &w.tree);
        let found = ways.iter().filter(|w| answer(w).unwrap() > 0).count();
        assert!((2..=12).contains(&found), "{found} of 16");
    }
}
