//! Table 1: every read with every update, by trying all small trees.
//!
//! A tree shows a node conflict when the read selects another set of nodes
//! after the update than before it. Work is shared in three ways, none of
//! which changes what is compared: what a pattern selects on a tree is found
//! once; updates with the same points and the same inserted tree leave the
//! same document, so it is made and read once for all of them; and trees go by
//! rising size, so a pair that has its witness needs no further tree.

use crate::classes::Classes;
use crate::counts::{Count, Counts};
use crate::node_set::NodeSet;
use crate::numbering::{trees_of, Numbering, Update, TREE_LABELS};
use crate::placing::selected;
use crate::tree::{Row, Tree};
use crate::updates::{delete_at, insert_at};
use crate::verdict::Verdict;
use std::io::{self, Write};

/// What the trees have shown for each pair.
pub struct Pairs<'a> {
    numbering: &'a Numbering,
    /// For each update and read: the nodes of a smallest witness, 0 for none.
    witness: Vec<Vec<usize>>,
    /// For each pattern of an update and each read: true when some tree has an
    /// update point at or below a node that the read selects.
    touched: Vec<Vec<bool>>,
    trees: usize,
    classes: usize,
}

/// Patterns that select the same nodes of a tree.
struct Alike {
    points: NodeSet,
    patterns: Vec<usize>,
}

/// The most nodes a tree has that is tried for a read and an update pattern.
pub fn bound(read_steps: usize, update_steps: usize) -> usize {
    read_steps + update_steps - 1
}

impl<'a> Pairs<'a> {
    /// Tries one tree of every class that is within the bound of some pair.
    pub fn tried(numbering: &'a Numbering) -> Pairs<'a> {
        let mut pairs = Pairs::untried(numbering);
        let steps = numbering.patterns.iter().map(|p| p.size()).max();
        let most = steps.map_or(0, |steps| bound(steps, steps));
        let mut classes = Classes::default();
        for table in (1..=most).flat_map(|n| trees_of(n, TREE_LABELS)) {
            pairs.trees += 1;
            if classes.is_new(&table) {
                pairs.try_tree(&table);
            }
        }
        pairs.classes = classes.met();
        pairs
    }

    /// No tree has been tried: no pair has a witness.
    fn untried(numbering: &'a Numbering) -> Pairs<'a> {
        let reads = numbering.patterns.len();
        Pairs {
            numbering,
            witness: vec![vec![0; reads]; numbering.updates().len()],
            touched: vec![vec![false; reads]; reads],
            trees: 0,
            classes: 0,
        }
    }

    /// Tries every read with every update on one tree.
    fn try_tree(&mut self, table: &[Row]) {
        let tree = Tree::linked(table);
        let numbering = self.numbering;
        let patterns = numbering.patterns.iter();
        let before: Vec<NodeSet> = patterns.map(|p| selected(&tree, p)).collect();
        self.note_touched(&tree, &before);
        for alike in points_of(&before) {
            self.try_deletes(&tree, &before, &alike);
            for inserted in 0..numbering.inserted.len() {
                self.try_inserts(&tree, &before, &alike, inserted);
            }
        }
    }

    /// Runs the delete at these points and compares every read.
    fn try_deletes(&mut self, tree: &Tree, before: &[NodeSet], alike: &Alike) {
        let single = self.numbering.single_steps;
        let allowed = alike.patterns.iter().filter(|&&pattern| pattern >= single);
        let updates: Vec<Update> = allowed.map(|&pattern| Update::Delete { pattern }).collect();
        if updates.is_empty() {
            return;
        }
        let mut after = tree.clone();
        delete_at(&mut after, alike.points.rising());
        self.compare(tree, before, &after, &updates);
    }

    /// Runs the insert of one tree at these points and compares every read.
    fn try_inserts(&mut self, tree: &Tree, before: &[NodeSet], alike: &Alike, inserted: usize) {
        let patterns = alike.patterns.iter();
        let updates: Vec<Update> = patterns
            .map(|&pattern| Update::Insert { pattern, inserted })
            .collect();
        let mut after = tree.clone();
        insert_at(
            &mut after,
            alike.points.rising(),
            &self.numbering.inserted[inserted],
        );
        self.compare(tree, before, &after, &updates);
    }

    /// Gives this tree's size as witness to each open pair of a read whose
    /// nodes differ before and after, and one of the updates.
    fn compare(&mut self, tree: &Tree, before: &[NodeSet], after: &Tree, updates: &[Update]) {
        let nodes = tree.nodes().len();
        for (read, &nodes_before) in before.iter().enumerate() {
            let open = self.open_pairs(updates, read, nodes);
            if open.is_empty() {
                continue;
            }
            if selected(after, &self.numbering.patterns[read]) != nodes_before {
                for number in open {
                    self.witness[number][read] = nodes;
                }
            }
        }
    }

    /// The numbers of those updates that have no witness with the read yet and
    /// for which a tree of this size is within the bound.
    fn open_pairs(&self, updates: &[Update], read: usize, nodes: usize) -> Vec<usize> {
        updates
            .iter()
            .filter(|update| nodes <= self.bound_of(update.pattern(), read))
            .map(|&update| self.numbering.update_number(update))
            .filter(|&number| self.witness[number][read] == 0)
            .collect()
    }

    /// Notes each pair of an update's pattern and a read for which this tree
    /// has an update point at or below a node of the read.
    fn note_touched(&mut self, tree: &Tree, before: &[NodeSet]) {
        let nodes = tree.nodes().len();
        for pattern in 0..before.len() {
            for read in 0..before.len() {
                let open = !self.touched[pattern][read] && nodes <= self.bound_of(pattern, read);
                if open && touches(tree, before[pattern], before[read]) {
                    self.touched[pattern][read] = true;
                }
            }
        }
    }

    /// The bound for an update's pattern and a read.
    fn bound_of(&self, pattern: usize, read: usize) -> usize {
        let patterns = &self.numbering.patterns;
        bound(patterns[read].size(), patterns[pattern].size())
    }

    /// What the trees have shown for a pair.
    pub fn verdict(&self, update: Update, read: usize) -> Verdict {
        let witness = self.witness[self.numbering.update_number(update)][read];
        Verdict {
            witness,
            deep: witness > 0 || self.touched[update.pattern()][read],
        }
    }

    /// A pair's character: the witness number as a digit if the two verdicts
    /// agree, else as a letter counted from `a`.
    fn character(&self, update: Update, read: usize) -> char {
        let Verdict { witness, deep } = self.verdict(update, read);
        let agree = deep == (witness > 0);
        let first = if agree { b'0' } else { b'a' };
        char::from(first + witness as u8)
    }

    /// Writes table 1, a line an update.
    pub fn write(&self, out: &mut dyn Write) -> io::Result<Counts> {
        let reads = 0..self.numbering.patterns.len();
        let mut written = 0;
        for update in self.numbering.updates() {
            let of_read = |read| self.character(update, read);
            let line: String = reads.clone().map(of_read).collect();
            written += line.len();
            writeln!(out, "{line}")?;
        }
        Ok(vec![
            Count::new("pairs", written),
            Count::new("trees", self.trees),
            Count::new("tree-classes", self.classes),
        ])
    }
}

/// The patterns gathered by what they select on a tree. Those that select
/// nothing are left out: an update without points leaves the tree as it is.
fn points_of(before: &[NodeSet]) -> Vec<Alike> {
    let mut found: Vec<Alike> = Vec::new();
    for (pattern, &points) in before.iter().enumerate() {
        if points.is_empty() {
            continue;
        }
        match found.iter_mut().find(|alike| alike.points == points) {
            Some(alike) => alike.patterns.push(pattern),
            None => found.push(Alike {
                points,
                patterns: vec![pattern],
            }),
        }
    }
    found
}

/// True when some update point is a node of the read or has one above it.
pub fn touches(tree: &Tree, points: NodeSet, read: NodeSet) -> bool {
    points
        .rising()
        .any(|point| tree.upward(point).any(|node| read.has(node)))
}

#[cfg(test)]
mod tests {
    use super::*;
    use crate::verdict::{self, Operation};

    /// The plain verdict of a numbered pair with trees of at most `most` nodes.
    fn plain(numbering: &Numbering, update: Update, read: usize, most: usize) -> Verdict {
        let points = &numbering.patterns[update.pattern()];
        let operation = match update {
            Update::Delete { .. } => Operation::Delete(points),
            Update::Insert { inserted, .. } => {
                Operation::Insert(points, &numbering.inserted[inserted])
            }
        };
        verdict::with_trees(&numbering.patterns[read], operation, &[1, 2, 3], most)
    }

    #[test]
    fn sharing_work_changes_nothing_and_no_tree_past_the_bound_helps() {
        let numbering = Numbering::up_to(2, 1);
        let pairs = Pairs::tried(&numbering);
        for update in numbering.updates() {
            for read in 0..numbering.patterns.len() {
                let most = pairs.bound_of(update.pattern(), read) + 1;
                let plain = plain(&numbering, update, read, most);
                assert_eq!(pairs.verdict(update, read), plain);
            }
        }
    }

    /// The pairs by those trees only that `keep` keeps, one of a class or not.
    fn by_trees(numbering: &Numbering, keep: fn(&[Row]) -> bool) -> Pairs<'_> {
        let mut pairs = Pairs::untried(numbering);
        let most = pairs.bound_of(numbering.patterns.len() - 1, numbering.patterns.len() - 1);
        for table in (1..=most).flat_map(|n| trees_of(n, TREE_LABELS)) {
            if keep(&table) {
                pairs.try_tree(&table);
            }
        }
        pairs
    }

    /// Holds when the pairs are the same by chains alone and by every tree.
    fn check_chains_and_all_trees(numbering: &Numbering) {
        let is_chain = |table: &[Row]| (1..table.len()).all(|v| table[v].parent == v - 1);
        let found = Pairs::tried(numbering);
        for other in [by_trees(numbering, is_chain), by_trees(numbering, |_| true)] {
            assert_eq!(found.witness, other.witness);
            assert_eq!(found.touched, other.touched);
        }
    }

    #[test]
    fn a_smallest_witness_is_a_chain_and_one_tree_of_a_class_is_enough() {
        check_chains_and_all_trees(&Numbering::up_to(2, 2));
    }

    #[test]
    #[ignore = "takes long without optimization"]
    fn the_same_for_all_pairs_of_the_table() {
        check_chains_and_all_trees(&Numbering::full());
    }
}
