//! The peer: the same algorithm and the same checks, as one would write them in Rust.

pub mod checks;
pub mod compact;
pub mod entering;
pub mod evidence;
pub mod meeting;
pub mod mend;
pub mod plan;
pub mod read;
pub mod tags;
pub mod tags_in;
pub mod verdict;

/// Steps of a pattern at most.
pub const STEPS: usize = 255;
/// Nodes of an inserted tree at most, of a proposed one, and of one that is written as tags or read.
pub const TREE_NODES: usize = 1024;
/// Nodes in use of a document at most.
pub const USED: usize = 4096;
/// Frames of a batch at most.
pub const FRAMES: usize = 128;
/// Words of a batch at most.
pub const WORDS: usize = 16384;

/// A count, or the number of a refusal.
pub type Counted = Result<usize, usize>;

/// The axis of a step, or the parent of a node.
pub fn first(table: &[u16], i: usize) -> usize {
    table[2 * i] as usize
}

/// The label of a step or a node.
pub fn label(table: &[u16], i: usize) -> u16 {
    table[2 * i + 1]
}

/// Whether a step's label takes a node's.
pub fn takes(step: u16, node: u16) -> bool {
    step == 0 || step == node
}

/// Whether step i, once placed, may wait for a node further down: the next axis is descendant.
pub fn stays(pattern: &[u16], i: usize) -> bool {
    2 * i + 2 < pattern.len() && first(pattern, i + 1) == 2
}
