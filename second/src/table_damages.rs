//! Tables of patterns and trees with damage, for the order of checks.

/// A pattern of two steps with damage: how many words there are, the first step's
/// axis and the second one's. The first damage is none.
const PATTERN_DAMAGES: [(usize, u16, u16); 12] = [
    (4, 0, 2),
    (0, 0, 2),
    (3, 0, 2),
    (2, 0, 2),
    (510, 0, 2),
    (512, 0, 2),
    (513, 0, 2),
    (4, 1, 2),
    (4, 0, 0),
    (4, 0, 3),
    (4, 2, 3),
    (512, 1, 2),
];

/// A tree of three nodes with damage: how many words there are, the root and the last
/// node, each by its parent and label. The first damage is none.
const TREE_DAMAGES: [(usize, [u16; 2], [u16; 2]); 13] = [
    (6, [0, 1], [1, 1]),
    (0, [0, 1], [1, 1]),
    (5, [0, 1], [1, 1]),
    (2_048, [0, 1], [1, 1]),
    (2_050, [0, 1], [1, 1]),
    (2_051, [0, 1], [1, 1]),
    (6, [1, 1], [1, 1]),
    (6, [0, 0], [1, 1]),
    (6, [0, 1], [2, 1]),
    (6, [0, 1], [1, 0]),
    (6, [0, 1], [2, 0]),
    (6, [0, 0], [2, 1]),
    (2_050, [0, 0], [1, 1]),
];

/// The node between the root and the last one.
const MIDDLE: [u16; 2] = [0, 2];

/// What is behind the steps: child steps with the wildcard.
const STEP: [u16; 2] = [1, 0];

/// What is behind the nodes: children of the root with label 1.
const NODE: [u16; 2] = [0, 1];

/// The pattern of two steps with these labels, with each damage.
pub fn patterns(first: u16, second: u16) -> Vec<Vec<u16>> {
    let damaged = |(words, axis, later)| {
        let own = [axis, first, later, second];
        repeated(&own, STEP, words)
    };
    PATTERN_DAMAGES.map(damaged).to_vec()
}

/// The tree of three nodes, with each damage.
pub fn trees() -> Vec<Vec<u16>> {
    let damaged = |(words, root, last)| repeated(&[root, MIDDLE, last].concat(), NODE, words);
    TREE_DAMAGES.map(damaged).to_vec()
}

/// So many words of a table behind which the same pair stands again and again.
fn repeated(own: &[u16], behind: [u16; 2], words: usize) -> Vec<u16> {
    let endless = behind.into_iter().cycle();
    own.iter().copied().chain(endless).take(words).collect()
}
