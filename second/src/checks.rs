//! The tables of patterns and trees: their checks, one after another in document
//! 01's order, and what they hold.

use crate::limits::STEPS;
use crate::pattern::{Axis, Pattern, Step};
use crate::refusal::{number, refused, Refusal};
use crate::tree::{rows_of, Row, ROOT};

/// The pattern of a table, or its first refusal.
pub fn pattern(words: &[u16], table: usize) -> Result<Pattern, Refusal> {
    check_size(words, STEPS, table)?;
    let step = |(place, pair): (usize, &[u16])| {
        let axis = axis(place, pair[0]).ok_or(refused(number::WRONG_AXIS, table, place))?;
        let label = pair[1];
        Ok(Step { axis, label })
    };
    let steps = words.chunks(2).enumerate().map(step);
    let steps = steps.collect::<Result<Vec<Step>, Refusal>>()?;
    Ok(Pattern { steps })
}

/// The axis that a step's first word stands for: 0 at the first step, 1 or 2 at a later one.
fn axis(place: usize, word: u16) -> Option<Axis> {
    match (place, word) {
        (0, 0) => Some(Axis::Root),
        (0, _) => None,
        (_, 1) => Some(Axis::Child),
        (_, 2) => Some(Axis::Descendant),
        _ => None,
    }
}

/// The rows of a tree of at most so many nodes, or its first refusal.
pub fn tree(words: &[u16], most: usize, table: usize) -> Result<Vec<Row>, Refusal> {
    check_size(words, most, table)?;
    let rows = rows_of(words);
    check_nodes(&rows, table)?;
    Ok(rows)
}

/// Each node in turn has a right parent and then a right label.
pub fn check_nodes(rows: &[Row], table: usize) -> Result<(), Refusal> {
    for (node, row) in rows.iter().enumerate() {
        check_node(node, row).map_err(|number| refused(number, table, node))?;
    }
    Ok(())
}

/// There are words, two for each step or node, and not too many of these.
fn check_size(words: &[u16], most: usize, table: usize) -> Result<(), Refusal> {
    if words.is_empty() || words.len() % 2 == 1 {
        return Err(refused(number::NO_WORDS, table, 0));
    }
    if words.len() / 2 > most {
        return Err(refused(number::PAST_LIMIT, table, 0));
    }
    Ok(())
}

/// The parent is 0 at the root and a lower number elsewhere, and then the label is not 0.
fn check_node(node: usize, row: &Row) -> Result<(), usize> {
    let above = match node {
        ROOT => row.parent == ROOT,
        _ => row.parent < node,
    };
    if !above {
        return Err(number::WRONG_PARENT);
    }
    if row.label == 0 {
        return Err(number::LABEL_ZERO);
    }
    Ok(())
}

#[cfg(test)]
mod tests {
    use super::*;
    use crate::examples;

    #[test]
    fn a_pattern_is_checked_in_order() {
        let no = |words: &[u16]| pattern(words, 2).unwrap_err();
        assert_eq!(no(&[]), refused(1, 2, 0));
        assert_eq!(no(&[9; 513]), refused(1, 2, 0));
        assert_eq!(no(&[9; 512]), refused(2, 2, 0));
        assert_eq!(no(&[9; 510]), refused(3, 2, 0));
        assert_eq!(no(&[0, 9, 1, 9, 0, 9, 3, 9]), refused(3, 2, 2));
        let words = [0, 1, 1, 0, 2, 2];
        assert_eq!(pattern(&words, 2), Ok(examples::pattern("a/*//b")));
    }

    #[test]
    fn a_tree_is_checked_in_order() {
        let no = |words: &[u16]| tree(words, 3, 5).unwrap_err();
        assert_eq!(no(&[]), refused(1, 5, 0));
        assert_eq!(no(&[9; 9]), refused(1, 5, 0));
        assert_eq!(no(&[9; 8]), refused(2, 5, 0));
        assert_eq!(no(&[0, 1, 1, 0, 0, 0]), refused(4, 5, 1));
        assert_eq!(no(&[0, 1, 0, 0, 2, 1]), refused(5, 5, 1));
        assert_eq!(tree(&[0, 1, 0, 2], 3, 5), Ok(examples::chain("ab")));
    }
}
