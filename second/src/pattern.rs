//! Patterns: rows of steps.

/// The label that agrees with every label.
pub const WILDCARD: u16 = 0;

/// How a step lies to the step before it, each by its number in a table.
#[derive(Clone, Copy, Debug, PartialEq, Eq)]
pub enum Axis {
    /// The first step: it has no step before it and lies on the root.
    Root = 0,
    /// Exactly one level down.
    Child = 1,
    /// One level down or more.
    Descendant = 2,
}

/// One step of a pattern.
#[derive(Clone, Copy, Debug, PartialEq, Eq)]
pub struct Step {
    pub axis: Axis,
    pub label: u16,
}

impl Step {
    /// True when a node with this label may carry the step.
    pub fn agrees(&self, label: u16) -> bool {
        self.label == WILDCARD || self.label == label
    }
}

/// A pattern; its last step is the output.
#[derive(Clone, Debug, PartialEq, Eq)]
pub struct Pattern {
    pub steps: Vec<Step>,
}

impl Pattern {
    /// The number of steps.
    pub fn size(&self) -> usize {
        self.steps.len()
    }

    /// The words of its table, an axis and a label for each step.
    pub fn words(&self) -> Vec<u16> {
        let pair = |step: &Step| [step.axis as u16, step.label];
        self.steps.iter().flat_map(pair).collect()
    }
}
