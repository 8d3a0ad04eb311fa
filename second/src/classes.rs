//! Trees that differ only in how their nodes are numbered.
//!
//! Selection looks at labels along links and never at a node's number, and a
//! read is compared with itself on the same tree. So of all trees that are
//! alike as unordered labelled trees either each shows a difference or none
//! does, and trying one of them is enough.

use crate::tree::{Row, Tree, ROOT};
use std::collections::HashSet;

/// The classes met so far.
#[derive(Default)]
pub struct Classes {
    forms: HashSet<Vec<u16>>,
}

impl Classes {
    /// True for the first tree of its class, false for every later one.
    pub fn is_new(&mut self, table: &[Row]) -> bool {
        self.forms.insert(form(&Tree::linked(table), ROOT))
    }

    /// The number of classes met.
    pub fn met(&self) -> usize {
        self.forms.len()
    }
}

/// The shape of the part below a node: its label, the sorted forms of its
/// children, and a 0 as the end. Two parts are alike exactly if this is equal.
fn form(tree: &Tree, node: usize) -> Vec<u16> {
    let below = &tree.node(node).children;
    let mut parts: Vec<Vec<u16>> = below.iter().map(|&child| form(tree, child)).collect();
    parts.sort();
    let mut whole = vec![tree.node(node).label];
    whole.extend(parts.concat());
    whole.push(0);
    whole
}

#[cfg(test)]
mod tests {
    use super::*;
    use crate::numbering::trees_of;

    #[test]
    fn three_nodes_with_three_labels_have_45_classes() {
        let mut classes = Classes::default();
        let fresh = trees_of(3, 3).filter(|table| classes.is_new(table)).count();
        assert_eq!(fresh, 27 + 18);
        assert_eq!(classes.met(), 45);
    }
}
