//! The refusals of patterns, trees and documents, by number.

use super::{first, label, STEPS, TREE_NODES, USED};

/// A pattern: 1, 2, 3.
pub fn pattern(pattern: &[u16]) -> Result<(), usize> {
    if pattern.is_empty() || pattern.len() % 2 == 1 {
        return Err(1);
    }
    if pattern.len() / 2 > STEPS {
        return Err(2);
    }
    for i in 0..pattern.len() / 2 {
        let axis = first(pattern, i);
        let right = if i == 0 { axis == 0 } else { axis == 1 || axis == 2 };
        if !right {
            return Err(3);
        }
    }
    Ok(())
}

/// Node by node: 4, 5.
fn nodes(tree: &[u16], count: usize) -> Result<(), usize> {
    for v in 0..count {
        let parent = first(tree, v);
        let right = if v == 0 { parent == 0 } else { parent < v };
        if !right {
            return Err(4);
        }
        if label(tree, v) == 0 {
            return Err(5);
        }
    }
    Ok(())
}

/// An inserted tree, a proposed one, or one that is written as tags: 1, 2, then node by node 4, 5.
pub fn tree(tree: &[u16]) -> Result<(), usize> {
    if tree.is_empty() || tree.len() % 2 == 1 {
        return Err(1);
    }
    if tree.len() / 2 > TREE_NODES {
        return Err(2);
    }
    nodes(tree, tree.len() / 2)
}

/// A document but for what its marks are: 12 for the used count, then node by node 4, 5.
pub fn shape(rows: &[u16], marks: &[u8], used: usize) -> Result<(), usize> {
    if used == 0 || used > USED || used > rows.len() / 2 || used > marks.len() {
        return Err(12);
    }
    nodes(rows, used)
}

/// A document: 12 for the used count, node by node 4, 5, then 12 for the marks.
pub fn document(rows: &[u16], marks: &[u8], used: usize) -> Result<(), usize> {
    shape(rows, marks, used)?;
    for v in 0..used {
        let above = marks[first(rows, v)];
        let right = if v == 0 {
            marks[0] == 0
        } else {
            marks[v] == 1 || (marks[v] == 0 && above == 0)
        };
        if !right {
            return Err(12);
        }
    }
    Ok(())
}

/// The identities of a document: 12 for a row that is too short, out of order or not all below the next one.
pub fn identities(ids: &[u32], used: usize, next: u32) -> Result<(), usize> {
    if used > ids.len() || !ids[..used].windows(2).all(|pair| pair[0] < pair[1]) {
        return Err(12);
    }
    match ids[..used].last() {
        Some(&last) if last >= next => Err(12),
        _ => Ok(()),
    }
}
