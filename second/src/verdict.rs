//! The verdict on one pair straight from the definitions, for the examples and
//! the plans of table 9: every tree is read, updated and read again, and no work
//! is shared.

use crate::node_set::NodeSet;
use crate::numbering::trees_of;
use crate::pairs::{bound, touches};
use crate::pattern::{Pattern, WILDCARD};
use crate::placing::selected;
use crate::tree::{Row, Tree};
use crate::updates::{delete_at, insert_at};

/// An update by its parts.
#[derive(Clone, Copy)]
pub enum Operation<'a> {
    Delete(&'a Pattern),
    Insert(&'a Pattern, &'a [Row]),
}

/// The nodes of a smallest witness (0 for none) and the deep verdict.
#[derive(Clone, Copy, Debug, PartialEq, Eq)]
pub struct Verdict {
    pub witness: usize,
    pub deep: bool,
}

impl Operation<'_> {
    /// The pattern that gives the update points.
    fn pattern(&self) -> &Pattern {
        match self {
            Operation::Delete(pattern) | Operation::Insert(pattern, _) => pattern,
        }
    }

    /// The tree after the update at these points.
    fn run(&self, tree: &Tree, points: NodeSet) -> Tree {
        let mut after = tree.clone();
        match self {
            Operation::Delete(_) => delete_at(&mut after, points.rising()),
            Operation::Insert(_, inserted) => insert_at(&mut after, points.rising(), inserted),
        };
        after
    }
}

/// The verdict by all trees within the bound, with the names that occur and
/// one that occurs nowhere.
pub fn of(read: &Pattern, operation: Operation) -> Verdict {
    let most = bound(read.size(), operation.pattern().size());
    with_trees(read, operation, &names(read, operation), most)
}

/// The verdict by all trees of at most `most` nodes with these names.
pub fn with_trees(read: &Pattern, operation: Operation, names: &[u16], most: usize) -> Verdict {
    let mut verdict = Verdict {
        witness: 0,
        deep: false,
    };
    for table in (1..=most).flat_map(|n| trees_of(n, names.len())) {
        let tree = Tree::linked(&named(table, names));
        let before = selected(&tree, read);
        let points = selected(&tree, operation.pattern());
        let after = selected(&operation.run(&tree, points), read);
        if verdict.witness == 0 && before != after {
            verdict.witness = tree.nodes().len();
        }
        verdict.deep |= before != after || touches(&tree, points, before);
    }
    verdict
}

/// The names that occur in a pair, and one that occurs nowhere.
fn names(read: &Pattern, operation: Operation) -> Vec<u16> {
    let steps = read.steps.iter().chain(&operation.pattern().steps);
    let mut names: Vec<u16> = steps.map(|step| step.label).collect();
    if let Operation::Insert(_, inserted) = operation {
        names.extend(inserted.iter().map(|row| row.label));
    }
    names.retain(|&name| name != WILDCARD);
    names.push(names.iter().max().map_or(1, |most| most + 1));
    names.sort_unstable();
    names.dedup();
    names
}

/// The tree with label i replaced by the i-th name.
fn named(table: Vec<Row>, names: &[u16]) -> Vec<Row> {
    let rename = |row: Row| Row {
        label: names[usize::from(row.label) - 1],
        ..row
    };
    table.into_iter().map(rename).collect()
}
