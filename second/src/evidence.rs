//! Another shop's witness: on a proposed tree the read is run, then the update,
//! then the read again, and the two sets of node numbers are compared.

use crate::carrying::answer;
use crate::checks;
use crate::limits::{INSERTED_NODES, PROPOSED_NODES};
use crate::pattern::Pattern;
use crate::refusal::{number, Refusal, DOCUMENT, INSERTED, READ, UPDATE};
use crate::tree::Tree;
use crate::updates::{delete_at, insert_at};
use std::collections::BTreeSet;

/// The first node that is lost to the read by the delete, 0 for none, or the
/// first refusal. The root is never lost.
pub fn delete(read: &[u16], points: &[u16], tree: &[u16]) -> Result<usize, Refusal> {
    let read = checks::pattern(read, READ)?;
    let points = checks::pattern(points, UPDATE)?;
    let tree = checks::tree(tree, PROPOSED_NODES, DOCUMENT)?;
    if points.size() == 1 {
        return Err(Refusal {
            number: number::DELETE_ROOT,
            table: UPDATE,
            place: 0,
        });
    }
    let before = Tree::linked(&tree);
    let mut after = before.clone();
    delete_at(&mut after, selected(&before, &points).into_iter());
    Ok(first_difference(&read, &before, &after))
}

/// The first new node that the read selects after the insert, 0 for none, or the
/// first refusal. The root is never new.
pub fn insert(
    read: &[u16],
    points: &[u16],
    inserted: &[u16],
    tree: &[u16],
) -> Result<usize, Refusal> {
    let read = checks::pattern(read, READ)?;
    let points = checks::pattern(points, UPDATE)?;
    let inserted = checks::tree(inserted, INSERTED_NODES, INSERTED)?;
    let tree = checks::tree(tree, PROPOSED_NODES, DOCUMENT)?;
    let before = Tree::linked(&tree);
    let mut after = before.clone();
    insert_at(
        &mut after,
        selected(&before, &points).into_iter(),
        &inserted,
    );
    Ok(first_difference(&read, &before, &after))
}

/// The least number that the read selects in one of two trees only, 0 for none.
fn first_difference(read: &Pattern, before: &Tree, after: &Tree) -> usize {
    let (before, after) = (selected(before, read), selected(after, read));
    let mut different = before.symmetric_difference(&after);
    different.next().copied().unwrap_or(0)
}

/// The numbers of the nodes that a pattern selects.
fn selected(tree: &Tree, pattern: &Pattern) -> BTreeSet<usize> {
    let row = answer(tree, pattern);
    (0..row.len()).filter(|&v| row[v] == 1).collect()
}

#[cfg(test)]
mod tests {
    use super::*;
    use crate::examples::{chain, pattern};
    use crate::numbering::{trees_of, Numbering, TREE_LABELS};
    use crate::placing;
    use crate::tree::{words_of, Row};

    /// The first node by a delete, from texts.
    fn lost(read: &str, points: &str, tree: &[Row]) -> usize {
        let (read, points) = (pattern(read).words(), pattern(points).words());
        delete(&read, &points, &words_of(tree)).unwrap()
    }

    /// The first node by an insert, from texts.
    fn gained(read: &str, points: &str, inserted: &str, tree: &str) -> usize {
        let (read, points) = (pattern(read).words(), pattern(points).words());
        let inserted = words_of(&chain(inserted));
        insert(&read, &points, &inserted, &words_of(&chain(tree))).unwrap()
    }

    #[test]
    fn the_first_lost_node_is_told() {
        assert_eq!(lost("a//c", "a/b", &chain("abcc")), 2);
        assert_eq!(lost("a//c", "a/b", &chain("acbc")), 0);
        assert_eq!(lost("a//c", "a//b", &chain("acbc")), 3);
        assert_eq!(lost("a", "a//*", &chain("ab")), 0);
    }

    #[test]
    fn the_first_new_node_is_told() {
        assert_eq!(gained("a//c", "a/b", "c", "ab"), 2);
        assert_eq!(gained("a//c", "a//b", "dc", "abb"), 4);
        assert_eq!(gained("a/b/c", "a//b", "c", "abb"), 3);
        assert_eq!(gained("a/b/b/c", "a//b", "c", "abb"), 4);
        assert_eq!(gained("a//d", "a/b", "c", "ab"), 0);
        assert_eq!(gained("a//c", "b", "c", "ab"), 0);
    }

    #[test]
    fn what_was_selected_before_an_insert_stays() {
        assert_eq!(gained("a//c", "a//c", "c", "accc"), 4);
        assert_eq!(gained("a/c", "a//c", "c", "accc"), 0);
    }

    #[test]
    fn the_root_is_not_deleted_and_that_is_told_last() {
        let refused = |read: &[u16], tree: &[u16]| {
            let refusal = delete(read, &[0, 1], tree).unwrap_err();
            (refusal.number, refusal.table)
        };
        assert_eq!(refused(&[0, 1], &[0, 1]), (6, 2));
        assert_eq!(refused(&[0, 1], &[0, 0]), (5, 5));
        assert_eq!(refused(&[1, 1], &[0, 0]), (3, 1));
    }

    #[test]
    fn the_inserted_tree_is_refused_before_the_proposed_one() {
        let refused = |inserted: &[u16], tree: &[u16]| {
            let refusal = insert(&[0, 1], &[0, 1], inserted, tree).unwrap_err();
            (refusal.number, refusal.table)
        };
        assert_eq!(refused(&[0, 0], &[]), (5, 3));
        assert_eq!(refused(&[0, 1], &[]), (1, 5));
    }

    /// Patterns of one and two steps and trees of at most three nodes: the steps are
    /// placed, and numbers are compared as the tables of pairs and documents do.
    #[test]
    fn placing_finds_the_same() {
        let numbering = Numbering::up_to(2, 1);
        for table in (1..=3).flat_map(|n| trees_of(n, TREE_LABELS)) {
            let tree = Tree::linked(&table);
            let words = words_of(&table);
            for points in &numbering.patterns {
                let chosen = placing::selected(&tree, points);
                let mut cut = tree.clone();
                delete_at(&mut cut, chosen.rising());
                let mut grown = tree.clone();
                insert_at(&mut grown, chosen.rising(), &chain("ab"));
                for read in &numbering.patterns {
                    let before = placing::selected(&tree, read);
                    let lost = before.without(placing::selected(&cut, read));
                    let new = placing::selected(&grown, read).without(before);
                    let first = |set: crate::node_set::NodeSet| set.rising().next().unwrap_or(0);
                    let (r, p, x) = (read.words(), points.words(), words_of(&chain("ab")));
                    if points.size() > 1 {
                        assert_eq!(delete(&r, &p, &words), Ok(first(lost)));
                    }
                    assert_eq!(insert(&r, &p, &x, &words), Ok(first(new)));
                }
            }
        }
    }
}
