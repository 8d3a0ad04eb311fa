//! Whether a read's set of nodes on a proposed tree differs before and after an update: the tree is read, and for an insert once more with one
//! copy of the inserted tree.

use super::entering::entering;
use super::read::{select, stand, word};
use super::{checks, first, Counted, TREE_NODES};

/// No mark is set.
const UNMARKED: [u8; 2 * TREE_NODES] = [0; 2 * TREE_NODES];

/// The first node that the read selects at or below one that the delete selects, 0 for none.
fn first_lost(read: &[u16], update: &[u16], proposed: &[u16]) -> usize {
    let nodes = proposed.len() / 2;
    let (mut selected, mut removed) = ([0; TREE_NODES], [0; TREE_NODES]);
    select(read, proposed, &UNMARKED, nodes, &mut selected);
    select(update, proposed, &UNMARKED, nodes, &mut removed);
    for v in 0..nodes {
        removed[v] |= removed[first(proposed, v)];
        if removed[v] & selected[v] == 1 {
            return v;
        }
    }
    0
}

/// The first new node that the read selects, 0 for none.
fn first_new(read: &[u16], update: &[u16], tree: &[u16], proposed: &[u16]) -> usize {
    let (nodes, copied) = (proposed.len() / 2, tree.len() / 2);
    let (mut points, mut entered) = ([0; TREE_NODES], [false; TREE_NODES]);
    select(update, proposed, &UNMARKED, nodes, &mut points);
    let enters = entering(read, tree);
    stand(read, proposed, nodes, |from, v, set| {
        entered[v] |= set & word(&enters, from) != 0
    });
    let Some(point) = (0..nodes).find(|&v| points[v] == 1 && entered[v]) else {
        return 0;
    };
    let mut rows = [0; 4 * TREE_NODES];
    rows[..proposed.len()].copy_from_slice(proposed);
    for k in 0..copied {
        let parent = if k == 0 { point } else { nodes + first(tree, k) };
        rows[2 * (nodes + k)] = parent as u16;
        rows[2 * (nodes + k) + 1] = tree[2 * k + 1];
    }
    let mut row = [0; 2 * TREE_NODES];
    select(read, &rows, &UNMARKED, nodes + copied, &mut row);
    let before = points[..point].iter().filter(|&&byte| byte == 1).count();
    let node = row[nodes..].iter().position(|&byte| byte == 1).unwrap_or(copied);
    nodes + before * copied + node
}

/// A read and a delete: the first node lost, 0 for none.
pub fn delete_evidence(read: &[u16], update: &[u16], proposed: &[u16]) -> Counted {
    checks::pattern(read)?;
    checks::pattern(update)?;
    checks::tree(proposed)?;
    if update.len() / 2 == 1 {
        return Err(6);
    }
    Ok(first_lost(read, update, proposed))
}

/// A read and an insert: the first new node selected, 0 for none.
pub fn insert_evidence(read: &[u16], update: &[u16], tree: &[u16], proposed: &[u16]) -> Counted {
    checks::pattern(read)?;
    checks::pattern(update)?;
    checks::tree(tree)?;
    checks::tree(proposed)?;
    Ok(first_new(read, update, tree, proposed))
}
