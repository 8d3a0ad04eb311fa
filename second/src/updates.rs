//! The two updates on linked nodes, at update points chosen beforehand.

use crate::tree::{Row, Tree, ROOT};

/// Removes each point with all that lies below it; gives the number of nodes
/// that were present before and are not now.
pub fn delete_at(tree: &mut Tree, points: impl Iterator<Item = usize>) -> usize {
    points.map(|point| tree.remove(point)).sum()
}

/// Hangs a fresh copy of the inserted tree under each point, in the order of the
/// points, which is that of rising number; gives the number of copies.
pub fn insert_at(tree: &mut Tree, points: impl Iterator<Item = usize>, inserted: &[Row]) -> usize {
    points
        .map(|point| copy_under(tree, point, inserted))
        .count()
}

/// Hangs one copy under a point; its nodes are new and come in the inserted
/// tree's own order.
fn copy_under(tree: &mut Tree, point: usize, inserted: &[Row]) {
    let mut copies: Vec<usize> = Vec::with_capacity(inserted.len());
    for (number, row) in inserted.iter().enumerate() {
        let parent = if number == ROOT {
            point
        } else {
            copies[row.parent]
        };
        copies.push(tree.add(Some(parent), row.label));
    }
}

#[cfg(test)]
mod tests {
    use super::*;
    use crate::examples::{chain, pattern};
    use crate::placing::selected;

    #[test]
    fn copies_are_not_selected_again() {
        let mut tree = Tree::linked(&chain("ab"));
        let points = selected(&tree, &pattern("a//b"));
        assert_eq!(insert_at(&mut tree, points.rising(), &chain("b")), 1);
        assert_eq!(tree.nodes().len(), 3);
        assert_eq!(tree.node(2).parent, Some(1));
    }

    #[test]
    fn nested_points_are_counted_once() {
        let mut tree = Tree::linked(&chain("abbc"));
        let points = selected(&tree, &pattern("a//b"));
        assert_eq!(points.size(), 2);
        assert_eq!(delete_at(&mut tree, points.rising()), 3);
        assert_eq!(delete_at(&mut tree, points.rising()), 0);
    }
}
