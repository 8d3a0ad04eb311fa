//! What a plan goes by: node conflicts alone, or the deep verdict.

use crate::verdict::Verdict;

/// The mode of a plan. A call or an input that names none is in deep mode.
#[derive(Clone, Copy, Debug, PartialEq, Eq)]
pub enum Mode {
    Node,
    Deep,
}

impl Mode {
    /// True when a read stays behind an update with which it has this verdict.
    pub fn keeps(self, verdict: Verdict) -> bool {
        match self {
            Mode::Node => verdict.witness > 0,
            Mode::Deep => verdict.deep,
        }
    }
}
