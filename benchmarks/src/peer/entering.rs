//! The states from which a read enters an inserted tree.

use super::{first, label, stays, takes, STEPS, TREE_NODES};

/// For each state before the last whether the read, in this state at the update point, reaches its last step in the tree. States
/// go from the last down, with two rows of nodes: those at which a run may be in the next state, and in this one.
pub fn entering(read: &[u16], tree: &[u16]) -> [bool; STEPS] {
    let nodes = tree.len() / 2;
    let mut next = [true; TREE_NODES];
    let mut enters = [false; STEPS];
    for k in (0..read.len() / 2 - 1).rev() {
        let step = label(read, k + 1);
        let may_stay = stays(read, k);
        let mut own = [false; TREE_NODES];
        let leaves = |own: &[bool], v: usize| (next[v] && takes(step, label(tree, v))) || (own[v] && may_stay);
        for v in (1..nodes).rev() {
            if leaves(&own, v) {
                own[first(tree, v)] = true;
            }
        }
        enters[k] = leaves(&own, 0);
        next = own;
    }
    enters
}
