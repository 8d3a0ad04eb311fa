//! The order in which patterns, trees and updates are counted.

use crate::pattern::{Axis, Pattern, Step};
use crate::tree::Row;

/// Patterns use the wildcard and the names 1 and 2.
const PATTERN_LABELS: usize = 3;

/// Patterns have 1 to this many steps.
const MOST_STEPS: usize = 3;

/// Trees use the names 1 to 3; name 3 is in no pattern.
pub const TREE_LABELS: usize = 3;

/// Inserted trees have 1 to this many nodes.
const MOST_INSERTED: usize = 3;

/// All numbered patterns and inserted trees.
pub struct Numbering {
    pub patterns: Vec<Pattern>,
    pub inserted: Vec<Vec<Row>>,
    /// How many patterns have one step; they come first and no delete has them.
    pub single_steps: usize,
}

/// An update by the numbers of its parts.
#[derive(Clone, Copy, Debug, PartialEq, Eq)]
pub enum Update {
    Delete { pattern: usize },
    Insert { pattern: usize, inserted: usize },
}

impl Update {
    /// The number of the pattern that gives the update points.
    pub fn pattern(&self) -> usize {
        match *self {
            Update::Delete { pattern } | Update::Insert { pattern, .. } => pattern,
        }
    }

    /// The same update at another pattern.
    pub fn at(self, pattern: usize) -> Update {
        match self {
            Update::Delete { .. } => Update::Delete { pattern },
            Update::Insert { inserted, .. } => Update::Insert { pattern, inserted },
        }
    }
}

impl Numbering {
    /// The numbering that the tables of trees use.
    pub fn full() -> Numbering {
        Numbering::up_to(MOST_STEPS, MOST_INSERTED)
    }

    /// Patterns of at most `steps` steps, inserted trees of at most `nodes` nodes.
    pub fn up_to(steps: usize, nodes: usize) -> Numbering {
        Numbering {
            single_steps: patterns_of(1).count(),
            patterns: (1..=steps).flat_map(patterns_of).collect(),
            inserted: (1..=nodes).flat_map(|n| trees_of(n, TREE_LABELS)).collect(),
        }
    }

    /// A pattern's number, if it has one.
    pub fn pattern_number(&self, pattern: &Pattern) -> Option<usize> {
        self.patterns.iter().position(|p| p == pattern)
    }

    /// An inserted tree's number, if it has one.
    pub fn inserted_number(&self, table: &[Row]) -> Option<usize> {
        self.inserted.iter().position(|x| x == table)
    }

    /// The number of deletes.
    fn deletes(&self) -> usize {
        self.patterns.len() - self.single_steps
    }

    /// All updates in order: the deletes, then the inserts.
    pub fn updates(&self) -> Vec<Update> {
        let patterns = 0..self.patterns.len();
        let deletes = patterns
            .clone()
            .skip(self.single_steps)
            .map(|pattern| Update::Delete { pattern });
        let inserts = patterns.flat_map(|pattern| {
            (0..self.inserted.len()).map(move |inserted| Update::Insert { pattern, inserted })
        });
        deletes.chain(inserts).collect()
    }

    /// An update's place in the order of updates.
    pub fn update_number(&self, update: Update) -> usize {
        match update {
            Update::Delete { pattern } => pattern - self.single_steps,
            Update::Insert { pattern, inserted } => {
                self.deletes() + self.inserted.len() * pattern + inserted
            }
        }
    }
}

/// The patterns of a given number of steps in rising code.
fn patterns_of(steps: usize) -> impl Iterator<Item = Pattern> {
    let later_choices = 2 * PATTERN_LABELS;
    let codes = PATTERN_LABELS * later_choices.pow(steps as u32 - 1);
    (0..codes).map(move |code| pattern_of(steps, code))
}

/// The pattern with this code; the first step varies fastest.
fn pattern_of(steps: usize, code: usize) -> Pattern {
    let mut row = vec![Step {
        axis: Axis::Root,
        label: (code % PATTERN_LABELS) as u16,
    }];
    let mut code = code / PATTERN_LABELS;
    for _ in 1..steps {
        row.push(later_step(code % (2 * PATTERN_LABELS)));
        code /= 2 * PATTERN_LABELS;
    }
    Pattern { steps: row }
}

/// A step behind the first by its choice: child steps first, then descendants.
fn later_step(choice: usize) -> Step {
    let axis = if choice < PATTERN_LABELS {
        Axis::Child
    } else {
        Axis::Descendant
    };
    let label = (choice % PATTERN_LABELS) as u16;
    Step { axis, label }
}

/// The tables of all trees of `nodes` nodes with labels 1 to `labels`, in rising code.
pub fn trees_of(nodes: usize, labels: usize) -> impl Iterator<Item = Vec<Row>> {
    let codes: usize = (0..nodes).map(|v| labels * v.max(1)).product();
    (0..codes).map(move |code| tree_of(nodes, labels, code))
}

/// The tree with this code; the root varies fastest, and a later node's choice
/// is its parent's number times `labels`, plus its label less one.
fn tree_of(nodes: usize, labels: usize, code: usize) -> Vec<Row> {
    let mut code = code;
    let mut table = Vec::with_capacity(nodes);
    for number in 0..nodes {
        let choices = labels * number.max(1);
        let choice = code % choices;
        code /= choices;
        table.push(Row {
            parent: choice / labels,
            label: (choice % labels) as u16 + 1,
        });
    }
    table
}

#[cfg(test)]
mod tests {
    use super::*;

    #[test]
    fn patterns_are_numbered_as_described() {
        let numbering = Numbering::full();
        assert_eq!(numbering.patterns.len(), 129);
        for (number, pattern) in numbering.patterns.iter().enumerate() {
            assert_eq!(number, number_of(pattern));
        }
    }

    /// A pattern's number, worked out from its steps.
    fn number_of(pattern: &Pattern) -> usize {
        let choice = |i: usize| {
            pattern.steps.get(i).map_or(0, |step| {
                let down = usize::from(step.axis == Axis::Descendant);
                down * 3 + usize::from(step.label)
            })
        };
        let before = [0, 3, 21][pattern.size() - 1];
        before + usize::from(pattern.steps[0].label) + 3 * (choice(1) + 6 * choice(2))
    }

    #[test]
    fn trees_are_numbered_as_described() {
        let counts: Vec<usize> = (1..=5).map(|n| trees_of(n, 3).count()).collect();
        assert_eq!(counts, [3, 9, 54, 486, 5832]);
        for (code, table) in trees_of(5, 3).enumerate() {
            let d = |v: usize| 3 * table[v].parent + usize::from(table[v].label) - 1;
            assert_eq!(code, d(0) + 3 * (d(1) + 3 * (d(2) + 6 * (d(3) + 9 * d(4)))));
            assert!((1..5).all(|v| table[v].parent < v));
        }
    }

    #[test]
    fn updates_are_numbered_as_described() {
        let numbering = Numbering::full();
        let updates = numbering.updates();
        assert_eq!(updates.len(), 8640);
        for (number, &update) in updates.iter().enumerate() {
            assert_eq!(numbering.update_number(update), number);
        }
        assert_eq!(updates[0], Update::Delete { pattern: 3 });
        let first = Update::Insert {
            pattern: 0,
            inserted: 0,
        };
        assert_eq!(updates[126], first);
    }
}
