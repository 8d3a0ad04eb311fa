//! Documents held in tables: linked, worked on, and written back.

use crate::limits::{DOCUMENT_NODES, IDENTITIES};
use crate::node_set::NodeSet;
use crate::pattern::Pattern;
use crate::placing::selected;
use crate::refusal::{number, refused, Refusal, DOCUMENT, ROOM, UPDATE};
use crate::tree::{rows_of, Row, Tree};
use crate::updates::{delete_at, insert_at};

/// A document: two words a node, a mark a node, how many nodes are used, an
/// identity a node, and the next identity to give.
#[derive(Clone, Debug, PartialEq, Eq)]
pub struct Document {
    pub words: Vec<u16>,
    pub marks: Vec<u8>,
    pub used: usize,
    pub ids: Vec<u32>,
    pub next: u32,
}

impl Document {
    /// A byte for each used node: 1 if the pattern selects it, else 0.
    pub fn read(&self, pattern: &Pattern) -> Vec<u8> {
        let found = selected(&self.linked(), pattern);
        (0..self.used).map(|v| u8::from(found.has(v))).collect()
    }

    /// The identities of the nodes that the pattern selects, in rising number.
    pub fn selected_ids(&self, pattern: &Pattern) -> Vec<u32> {
        let found = selected(&self.linked(), pattern);
        found.rising().map(|v| self.ids[v]).collect()
    }

    /// The present nodes that the pattern selects or that lie below one that it
    /// selects. Nothing is removed.
    pub fn covered(&self, pattern: &Pattern) -> NodeSet {
        let tree = self.linked();
        let found = selected(&tree, pattern);
        let mut covered = NodeSet::default();
        for v in 0..self.used {
            if !tree.node(v).removed && tree.upward(v).any(|above| found.has(above)) {
                covered.put(v);
            }
        }
        covered
    }

    /// Removes what the pattern selects and gives the number of nodes newly
    /// removed; a pattern of one step is refused and changes nothing.
    pub fn delete(&mut self, pattern: &Pattern) -> Result<usize, Refusal> {
        if pattern.size() == 1 {
            return Err(refused(number::DELETE_ROOT, UPDATE, 0));
        }
        let mut tree = self.linked();
        let points = selected(&tree, pattern);
        let removed = delete_at(&mut tree, points.rising());
        self.write_back(&tree);
        Ok(removed)
    }

    /// Hangs a copy under each node the pattern selects and gives the number of
    /// copies, each new node with an identity of its own; without enough of these,
    /// or without room, it is refused and changes nothing.
    pub fn insert(&mut self, pattern: &Pattern, inserted: &[Row]) -> Result<usize, Refusal> {
        let mut tree = self.linked();
        let points: NodeSet = selected(&tree, pattern);
        let new = points.size() * inserted.len();
        if new > IDENTITIES - self.next as usize {
            return Err(refused(number::NO_IDENTITY, DOCUMENT, 0));
        }
        if self.used + new > self.room() {
            return Err(refused(number::NO_ROOM, ROOM, 0));
        }
        let copies = insert_at(&mut tree, points.rising(), inserted);
        self.write_back(&tree);
        Ok(copies)
    }

    /// The most nodes that the document can come to use.
    fn room(&self) -> usize {
        let rows = self.words.len() / 2;
        DOCUMENT_NODES
            .min(rows)
            .min(self.marks.len())
            .min(self.ids.len())
    }

    /// The used nodes as a linked tree with their removed flags.
    pub fn linked(&self) -> Tree {
        let mut tree = Tree::linked(&rows_of(&self.words[..2 * self.used]));
        for number in (0..self.used).filter(|&v| self.marks[v] == 1) {
            tree.remove(number);
        }
        tree
    }

    /// Writes every node of the tree to its place and uses exactly those; each that
    /// was not used before gets the next identity.
    fn write_back(&mut self, tree: &Tree) {
        for (number, node) in tree.nodes().iter().enumerate() {
            self.words[2 * number] = node.parent.unwrap_or(0) as u16;
            self.words[2 * number + 1] = node.label;
            self.marks[number] = u8::from(node.removed);
            if number >= self.used {
                self.ids[number] = self.next;
                self.next += 1;
            }
        }
        self.used = tree.nodes().len();
    }
}

#[cfg(test)]
mod tests {
    use super::*;
    use crate::examples::{chain, pattern};

    /// The chain a, b, b with room for three more nodes.
    fn abb() -> Document {
        Document {
            words: vec![0, 1, 0, 2, 1, 2, 0, 0, 0, 0, 0, 0],
            marks: vec![0, 0, 0, 9, 9, 9],
            used: 3,
            ids: vec![4, 7, 70_000, 5, 5, 5],
            next: 70_005,
        }
    }

    #[test]
    fn copies_stand_behind_the_used_nodes_in_rising_number() {
        let mut document = abb();
        assert_eq!(document.insert(&pattern("a//b"), &chain("c")), Ok(2));
        let words = [0, 1, 0, 2, 1, 2, 1, 3, 2, 3, 0, 0];
        assert_eq!(document.words, words);
        assert_eq!(document.marks, [0, 0, 0, 0, 0, 9]);
        assert_eq!(document.used, 5);
        assert_eq!(document.ids, [4, 7, 70_000, 70_005, 70_006, 5]);
        assert_eq!(document.next, 70_007);
    }

    #[test]
    fn an_insert_without_room_changes_nothing() {
        let mut document = abb();
        let answer = document.insert(&pattern("a//b"), &chain("cd"));
        assert_eq!(answer, Err(refused(11, 4, 0)));
        assert_eq!(document, abb());
    }

    #[test]
    fn the_identity_row_limits_the_room() {
        let mut document = abb();
        document.ids.truncate(4);
        let answer = document.insert(&pattern("a//b"), &chain("c"));
        assert_eq!(answer, Err(refused(11, 4, 0)));
        assert_eq!(document.insert(&pattern("a"), &chain("c")), Ok(1));
        assert_eq!(document.ids, [4, 7, 70_000, 70_005]);
    }

    #[test]
    fn the_last_identity_to_give_is_one_less_than_the_most() {
        let mut document = abb();
        document.next = u32::MAX - 1;
        let answer = document.insert(&pattern("a//b"), &chain("cd"));
        assert_eq!(answer, Err(refused(16, 5, 0)));
        assert_eq!(document.insert(&pattern("a"), &chain("c")), Ok(1));
        assert_eq!(document.next, u32::MAX);
        let answer = document.insert(&pattern("a"), &chain("c"));
        assert_eq!(answer, Err(refused(16, 5, 0)));
        assert_eq!(document.insert(&pattern("b"), &chain("c")), Ok(0));
    }

    #[test]
    fn a_delete_counts_what_it_newly_removes() {
        let mut document = abb();
        assert_eq!(document.delete(&pattern("a/b/b")), Ok(1));
        assert_eq!(document.delete(&pattern("a//b")), Ok(1));
        assert_eq!(document.marks, [0, 1, 1, 9, 9, 9]);
        assert_eq!(document.words, abb().words);
        assert_eq!(document.read(&pattern("a//b")), [0, 0, 0]);
        assert!(document.delete(&pattern("a")).is_err());
    }
}
