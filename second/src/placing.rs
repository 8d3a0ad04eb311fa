//! Selection by trying every placement of a pattern's steps on present nodes.

use crate::node_set::NodeSet;
use crate::pattern::{Axis, Pattern, Step};
use crate::tree::{Tree, ROOT};

/// The nodes on which some placement of all steps puts the last step.
pub fn selected(tree: &Tree, pattern: &Pattern) -> NodeSet {
    let mut found = NodeSet::default();
    place(tree, &pattern.steps, ROOT, &mut found);
    found
}

/// Puts the first of `steps` on `node` if the two agree, and then tries every
/// node that the next step's axis allows. `found` gets each node that the last
/// step comes to lie on.
fn place(tree: &Tree, steps: &[Step], node: usize, found: &mut NodeSet) {
    let here = tree.node(node);
    if here.removed || !steps[0].agrees(here.label) {
        return;
    }
    let later = &steps[1..];
    match later.first().map(|step| step.axis) {
        None => found.put(node),
        Some(Axis::Child) => place_on_children(tree, later, node, found),
        Some(Axis::Descendant) => place_below(tree, later, node, found),
        Some(Axis::Root) => {}
    }
}

/// Tries the first of `steps` on each child of `node`.
fn place_on_children(tree: &Tree, steps: &[Step], node: usize, found: &mut NodeSet) {
    for &child in &tree.node(node).children {
        place(tree, steps, child, found);
    }
}

/// Tries the first of `steps` on each node strictly below `node`.
fn place_below(tree: &Tree, steps: &[Step], node: usize, found: &mut NodeSet) {
    for &child in &tree.node(node).children {
        place(tree, steps, child, found);
        place_below(tree, steps, child, found);
    }
}

#[cfg(test)]
mod tests {
    use super::*;
    use crate::examples::{chain, pattern};

    #[test]
    fn a_descendant_is_at_least_one_level_down() {
        let tree = Tree::linked(&chain("aaa"));
        let on = |text: &str| selected(&tree, &pattern(text)).rising().collect::<Vec<_>>();
        assert_eq!(on("a"), [0]);
        assert_eq!(on("a//a"), [1, 2]);
        assert_eq!(on("a//a//a"), [2]);
        assert_eq!(on("a/*"), [1]);
        assert_eq!(on("a//b"), []);
    }

    #[test]
    fn a_removed_node_carries_no_step() {
        let mut tree = Tree::linked(&chain("abc"));
        tree.remove(1);
        assert!(selected(&tree, &pattern("a//c")).is_empty());
        assert!(selected(&tree, &pattern("a")).has(0));
    }
}
