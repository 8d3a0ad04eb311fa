//! Compaction of a document. It goes by identities alone: the present nodes are
//! reached from the root down, sorted by identity, and numbered afresh.

use crate::document::Document;
use crate::tree::ROOT;
use std::collections::BTreeMap;

/// What is kept of a node: the identity above it and its label.
struct Kept {
    above: Option<u32>,
    label: u16,
}

impl Document {
    /// Drops the removed nodes and gives their number. What stands behind the
    /// nodes that are left stays, and so does the next identity.
    pub fn compact(&mut self) -> usize {
        let before = self.used;
        let kept = self.kept();
        let number_of = |id: u32| kept.range(..id).count();
        for (number, (&id, node)) in kept.iter().enumerate() {
            self.words[2 * number] = node.above.map_or(0, number_of) as u16;
            self.words[2 * number + 1] = node.label;
            self.marks[number] = 0;
            self.ids[number] = id;
        }
        self.used = kept.len();
        before - self.used
    }

    /// The present nodes by identity.
    fn kept(&self) -> BTreeMap<u32, Kept> {
        let tree = self.linked();
        let mut kept = BTreeMap::new();
        let mut waiting = vec![ROOT];
        while let Some(number) = waiting.pop() {
            let node = tree.node(number);
            if !node.removed {
                let above = node.parent.map(|parent| self.ids[parent]);
                let label = node.label;
                kept.insert(self.ids[number], Kept { above, label });
                waiting.extend(&node.children);
            }
        }
        kept
    }
}

#[cfg(test)]
mod tests {
    use super::*;
    use crate::documents::{documents_of, MOST_NODES};
    use crate::numbering::Numbering;

    /// a(b, c(d), e), with b removed or not.
    fn five(mark: u8) -> Document {
        Document {
            words: vec![0, 1, 0, 2, 0, 3, 2, 4, 0, 5, 6, 7],
            marks: vec![0, mark, 0, 0, 0, 9],
            used: 5,
            ids: vec![3, 5, 6, 9, 70_000, 8],
            next: 70_001,
        }
    }

    #[test]
    fn the_rest_closes_up_and_what_is_behind_stays() {
        let mut document = five(1);
        assert_eq!(document.compact(), 1);
        let words = [0, 1, 0, 3, 1, 4, 0, 5, 0, 5, 6, 7];
        assert_eq!(document.words, words);
        assert_eq!(document.marks, [0, 0, 0, 0, 0, 9]);
        assert_eq!(document.used, 4);
        assert_eq!(document.ids, [3, 6, 9, 70_000, 70_000, 8]);
        assert_eq!(document.next, 70_001);
    }

    #[test]
    fn with_nothing_removed_nothing_changes() {
        let mut document = five(0);
        assert_eq!(document.compact(), 0);
        assert_eq!(document, five(0));
    }

    /// The same by going once over the nodes.
    fn closed_up(document: &Document) -> Document {
        let mut closed = document.clone();
        let mut numbers = vec![0; document.used];
        closed.used = 0;
        for v in (0..document.used).filter(|&v| document.marks[v] == 0) {
            let number = closed.used;
            numbers[v] = number;
            closed.words[2 * number] = numbers[usize::from(document.words[2 * v])] as u16;
            closed.words[2 * number + 1] = document.words[2 * v + 1];
            closed.marks[number] = 0;
            closed.ids[number] = document.ids[v];
            closed.used += 1;
        }
        closed
    }

    #[test]
    fn going_over_the_nodes_gives_the_same() {
        for document in (1..=MOST_NODES).flat_map(documents_of) {
            let mut compacted = document.clone();
            let dropped = compacted.compact();
            assert_eq!(compacted, closed_up(&document));
            assert_eq!(compacted.used + dropped, document.used);
        }
    }

    #[test]
    fn every_read_selects_the_same_identities() {
        let numbering = Numbering::full();
        for document in (1..=MOST_NODES).flat_map(documents_of) {
            let mut compacted = document.clone();
            compacted.compact();
            for pattern in &numbering.patterns {
                let before = document.selected_ids(pattern);
                assert_eq!(compacted.selected_ids(pattern), before);
            }
        }
    }
}
