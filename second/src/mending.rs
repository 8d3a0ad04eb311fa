//! Mending of damaged marks. Of a small document every set of nodes is tried, and the
//! largest that may be present is kept. A large one is walked down from the root.

use crate::document::Document;
use crate::node_set::NodeSet;
use crate::tree::{rows_of, Tree, ROOT};

/// Sets are tried up to this many used nodes.
const MOST_TRIED: usize = 8;

/// The words for each mark of a used node that becomes another: the node, the old mark, the new.
pub fn changes(old: &[u8], new: &[u8]) -> Vec<[u16; 3]> {
    let pairs = old.iter().zip(new).enumerate();
    let changed = pairs.filter(|(_, (old, new))| old != new);
    changed
        .map(|(v, (&old, &new))| [v as u16, u16::from(old), u16::from(new)])
        .collect()
}

impl Document {
    /// The marks of the used nodes after a mending: 0 for the present ones, 1 for the others.
    pub fn mended_marks(&self) -> Vec<u8> {
        match self.used <= MOST_TRIED {
            true => self.marks_by_trying(),
            false => self.marks_by_walking(),
        }
    }

    /// The same by the largest of all sets that may be present.
    fn marks_by_trying(&self) -> Vec<u8> {
        let largest = self.sound_sets().max_by_key(NodeSet::size);
        let present = largest.expect("the root alone is such a set");
        (0..self.used).map(|v| u8::from(!present.has(v))).collect()
    }

    /// Every set of used nodes that may be present: it has the root and no other node whose
    /// mark is not 0, and with each node its parent.
    fn sound_sets(&self) -> impl Iterator<Item = NodeSet> + '_ {
        let parent = |v: usize| usize::from(self.words[2 * v]);
        let fits =
            move |set: NodeSet, v: usize| v == ROOT || self.marks[v] == 0 && set.has(parent(v));
        NodeSet::all_below(self.used)
            .filter(move |&set| set.has(ROOT) && set.rising().all(|v| fits(set, v)))
    }

    /// The same by what is reached from the root over children whose mark is 0.
    fn marks_by_walking(&self) -> Vec<u8> {
        let tree = Tree::linked(&rows_of(&self.words[..2 * self.used]));
        let mut marks = vec![1; self.used];
        let mut waiting = vec![ROOT];
        while let Some(number) = waiting.pop() {
            marks[number] = 0;
            let children = tree.node(number).children.iter();
            waiting.extend(children.filter(|&&child| self.marks[child] == 0));
        }
        marks
    }
}

#[cfg(test)]
mod tests {
    use super::*;
    use crate::document_calls::{check, mend};
    use crate::large_mends;
    use crate::mends::{documents_of, MOST_NODES};

    /// The same in the request's own words: the root's mark, the marks above 1, and then
    /// what is present under a removed node, for as long as there is any.
    fn marks_by_the_rule(document: &Document) -> Vec<u8> {
        let mut marks = document.marks[..document.used].to_vec();
        marks[ROOT] = 0;
        for mark in &mut marks[ROOT + 1..] {
            *mark = (*mark).min(1);
        }
        loop {
            let parent = |v: usize| usize::from(document.words[2 * v]);
            let under = |&v: &usize| marks[v] == 0 && marks[parent(v)] == 1;
            let present: Vec<usize> = (1..document.used).filter(under).collect();
            if present.is_empty() {
                return marks;
            }
            present.into_iter().for_each(|v| marks[v] = 1);
        }
    }

    /// All small documents.
    fn small() -> impl Iterator<Item = Document> {
        (1..=MOST_NODES).flat_map(documents_of)
    }

    #[test]
    fn trying_walking_and_the_rule_agree_on_small_documents() {
        for document in small() {
            let marks = document.marks_by_trying();
            assert_eq!(document.marks_by_walking(), marks);
            assert_eq!(marks_by_the_rule(&document), marks);
        }
    }

    #[test]
    fn walking_and_the_rule_agree_on_large_documents() {
        for document in large_mends::documents() {
            assert!(document.used > MOST_TRIED);
            assert_eq!(document.mended_marks(), marks_by_the_rule(&document));
        }
    }

    #[test]
    fn every_set_that_may_be_present_is_within_the_largest() {
        for document in small() {
            let largest = document.sound_sets().max_by_key(NodeSet::size).unwrap();
            assert!(document
                .sound_sets()
                .all(|set| set.without(largest).is_empty()));
        }
    }

    #[test]
    fn what_is_mended_is_sound_and_what_is_sound_stays() {
        for mut document in small() {
            let sound = check(&document).is_ok();
            let mut list = vec![0; 3 * document.used];
            let changes = mend(&mut document, &mut list).unwrap();
            assert_eq!(changes == 0, sound);
            assert_eq!(check(&document), Ok(()));
            assert_eq!(mend(&mut document, &mut []), Ok(0));
        }
    }

    #[test]
    fn the_list_undoes_a_mending_and_names_nothing_twice() {
        for document in small() {
            let mut mended = document.clone();
            let mut list = vec![0; 3 * document.used];
            let changes = mend(&mut mended, &mut list).unwrap();
            let named: Vec<&[u16]> = list.chunks(3).take(changes).collect();
            assert!(named.windows(2).all(|pair| pair[0][0] < pair[1][0]));
            for words in named {
                let mark = &mut mended.marks[usize::from(words[0])];
                assert_eq!(u16::from(*mark), words[2]);
                *mark = words[1] as u8;
            }
            assert_eq!(mended, document);
        }
    }

    #[test]
    fn a_present_node_under_a_damaged_mark_is_removed() {
        let mut document = Document {
            words: vec![0, 1, 0, 2, 1, 3, 0, 4, 3, 5, 6, 6],
            marks: vec![2, 200, 0, 0, 1, 9],
            used: 5,
            ids: vec![2, 4, 9, 11, 12, 99_999],
            next: 20,
        };
        let mut after = document.clone();
        after.marks = vec![0, 1, 1, 0, 1, 9];
        let mut list = [777; 11];
        assert_eq!(mend(&mut document, &mut list[..8]).unwrap_err().number, 7);
        assert_eq!(document.marks[0], 2);
        assert_eq!(mend(&mut document, &mut list), Ok(3));
        assert_eq!(document, after);
        assert_eq!(list, [0, 2, 0, 1, 200, 1, 2, 0, 1, 777, 777]);
    }
}
