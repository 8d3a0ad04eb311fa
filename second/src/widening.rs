//! Single changes that make a pattern or an inserted tree wider: a named label becomes
//! the wildcard, a child step a descendant step, or the tree gets one node more behind
//! its last.

use crate::numbering::{Numbering, TREE_LABELS};
use crate::pattern::{Axis, Pattern, Step, WILDCARD};
use crate::tree::Row;

/// What of a step is made wider.
#[derive(Clone, Copy, PartialEq, Eq)]
pub enum Part {
    Axis,
    Label,
}

/// The single changes of numbered patterns and trees, by their numbers.
pub struct Changes {
    /// For each pattern those with one step's label wider, and with one step's axis.
    labels: Vec<Vec<usize>>,
    axes: Vec<Vec<usize>>,
    /// For each inserted tree those with one node more behind it, where they have numbers.
    trees: Vec<Vec<usize>>,
}

impl Changes {
    /// Finds them all.
    pub fn of(numbering: &Numbering) -> Changes {
        let patterns = |parts: &[Part]| -> Vec<Vec<usize>> {
            let number = |wider: &Pattern| numbering.pattern_number(wider);
            let of_one = |p| widened(p, parts).iter().filter_map(number).collect();
            numbering.patterns.iter().map(of_one).collect()
        };
        let longer = |table: &Vec<Row>| {
            let number = |more: &Vec<Row>| numbering.inserted_number(more);
            grown(table).iter().filter_map(number).collect()
        };
        Changes {
            labels: patterns(&[Part::Label]),
            axes: patterns(&[Part::Axis]),
            trees: numbering.inserted.iter().map(longer).collect(),
        }
    }

    /// The patterns with this part of one step wider, the front steps first.
    pub fn of_pattern(&self, part: Part, pattern: usize) -> &[usize] {
        match part {
            Part::Label => &self.labels[pattern],
            Part::Axis => &self.axes[pattern],
        }
    }

    /// The trees with one node more behind the last, where they have numbers.
    pub fn of_tree(&self, inserted: usize) -> &[usize] {
        &self.trees[inserted]
    }
}

/// A pattern after each single change of one of these parts: step by step, in the order of the parts.
pub fn widened(pattern: &Pattern, parts: &[Part]) -> Vec<Pattern> {
    let mut found = Vec::new();
    for (place, &step) in pattern.steps.iter().enumerate() {
        for wider in parts.iter().filter_map(|&part| wider_step(step, part)) {
            let mut steps = pattern.steps.clone();
            steps[place] = wider;
            found.push(Pattern { steps });
        }
    }
    found
}

/// A step with this part wider, if there is a wider one.
fn wider_step(step: Step, part: Part) -> Option<Step> {
    match part {
        Part::Label => (step.label != WILDCARD).then_some(Step {
            label: WILDCARD,
            ..step
        }),
        Part::Axis => (step.axis == Axis::Child).then_some(Step {
            axis: Axis::Descendant,
            ..step
        }),
    }
}

/// A tree with one node more behind its last: every parent, and every label, which changes fastest.
fn grown(table: &[Row]) -> Vec<Vec<Row>> {
    let nodes = (0..table.len())
        .flat_map(|parent| (1..=TREE_LABELS as u16).map(move |label| Row { parent, label }));
    nodes.map(|node| [table, &[node]].concat()).collect()
}

/// True when a pattern is the other one, or has any of its parts wider.
#[cfg(test)]
pub fn covers(wide: &Pattern, narrow: &Pattern) -> bool {
    let step = |(w, n): (&Step, &Step)| {
        let label = w.label == n.label || w.label == WILDCARD;
        let axis = w.axis == n.axis || (n.axis, w.axis) == (Axis::Child, Axis::Descendant);
        label && axis
    };
    wide.size() == narrow.size() && wide.steps.iter().zip(&narrow.steps).all(step)
}

#[cfg(test)]
mod tests {
    use super::*;
    use crate::examples::{chain, pattern};

    #[test]
    fn a_pattern_is_widened_step_by_step() {
        let check = |text: &str, parts: &[Part], wider: &[&str]| {
            let named: Vec<Pattern> = wider.iter().map(|text| pattern(text)).collect();
            assert_eq!(widened(&pattern(text), parts), named);
        };
        check("a/b//*", &[Part::Label], &["*/b//*", "a/*//*"]);
        check("a/b/*", &[Part::Axis], &["a//b/*", "a/b//*"]);
        check("a/b", &[Part::Axis, Part::Label], &["*/b", "a//b", "a/*"]);
        check("*//*", &[Part::Axis, Part::Label], &[]);
    }

    #[test]
    fn a_tree_gets_a_node_under_each_of_its_nodes() {
        assert_eq!(grown(&chain("b")), ["ba", "bb", "bc"].map(chain));
        let more = grown(&chain("ab"));
        let parents: Vec<usize> = more.iter().map(|table| table[2].parent).collect();
        assert_eq!(parents, [0, 0, 0, 1, 1, 1]);
        assert_eq!(more[5], chain("abc"));
    }

    /// All that a number leads to by some changes in a row, itself too, in rising order.
    fn reached(from: usize, changes: impl Fn(usize) -> Vec<usize>) -> Vec<usize> {
        let mut found = vec![from];
        let mut at = 0;
        while at < found.len() {
            for next in changes(found[at]) {
                if !found.contains(&next) {
                    found.push(next);
                }
            }
            at += 1;
        }
        found.sort_unstable();
        found
    }

    #[test]
    fn changes_in_a_row_lead_to_all_that_is_wider_and_to_no_more() {
        let numbering = Numbering::full();
        let changes = Changes::of(&numbering);
        for (narrow, pattern) in numbering.patterns.iter().enumerate() {
            let of_parts = |k| {
                let parts = [Part::Axis, Part::Label];
                parts.map(|part| changes.of_pattern(part, k)).concat()
            };
            let all = 0..numbering.patterns.len();
            let wider = all.filter(|&k| covers(&numbering.patterns[k], pattern));
            assert_eq!(reached(narrow, of_parts), wider.collect::<Vec<_>>());
        }
        for (narrow, table) in numbering.inserted.iter().enumerate() {
            let all = 0..numbering.inserted.len();
            let longer = all.filter(|&x| numbering.inserted[x].starts_with(table));
            let found = reached(narrow, |x| changes.of_tree(x).to_vec());
            assert_eq!(found, longer.collect::<Vec<_>>());
        }
    }
}
