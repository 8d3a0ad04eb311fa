//! The checks of a batch of words, one after another in document 01's order.
//!
//! A check is always given words that run to the end of the batch. It never counts
//! where it is: how many words are left, from the one at fault on, tells the place.

use crate::limits::{BATCH_WORDS, FRAMES, INSERTED_NODES, STEPS};
use crate::refusal::{number, Refusal, BATCH};

pub const READ: u16 = 1;
pub const INSERT: u16 = 2;
pub const DELETE: u16 = 3;

/// What is wrong: the refusal number, and how many words there are from the one
/// at fault to the end, none where the fault is that a word is missing.
struct Fault {
    number: usize,
    left: usize,
}

impl Fault {
    /// A fault at the first of these words.
    fn at(number: usize, words: &[u16]) -> Fault {
        Fault {
            number,
            left: words.len(),
        }
    }

    /// The words end too early: the fault is at the first that is missing.
    fn missing() -> Fault {
        Fault::at(number::FRAME_ENDS, &[])
    }

    /// The refusal of all the words that this fault was found in.
    fn refusal(&self, words: &[u16]) -> Refusal {
        Refusal {
            number: self.number,
            table: BATCH,
            place: words.len() - self.left,
        }
    }
}

/// The number of frames of an accepted batch, else its first refusal. The plan
/// is taken to have a word for each frame, so refusal 7 has no occasion.
pub fn frames(words: &[u16]) -> Result<usize, Refusal> {
    counted_frames(words).map_err(|fault| fault.refusal(words))
}

/// Accepts words that are one frame and nothing more, else gives the first
/// refusal; its place is counted from the frame's own first word.
pub fn lone_frame(words: &[u16]) -> Result<(), Refusal> {
    only_frame(words).map_err(|fault| fault.refusal(words))
}

/// The number of frames, else the first fault.
fn counted_frames(words: &[u16]) -> Result<usize, Fault> {
    if words.len() > BATCH_WORDS {
        return Err(Fault::at(number::TOO_MANY, &words[BATCH_WORDS..]));
    }
    let mut count = 0;
    let mut rest = words;
    while !rest.is_empty() {
        if count == FRAMES {
            return Err(Fault::at(number::TOO_MANY, rest));
        }
        rest = behind_frame(rest)?;
        count += 1;
    }
    Ok(count)
}

/// One frame, with no words left over behind it.
fn only_frame(words: &[u16]) -> Result<(), Fault> {
    let over = behind_frame(words)?;
    if over.is_empty() {
        Ok(())
    } else {
        Err(Fault::at(number::FRAME_ENDS, over))
    }
}

/// The words behind the frame that starts here.
fn behind_frame(words: &[u16]) -> Result<&[u16], Fault> {
    let (kind, pattern) = first(words)?;
    if ![READ, INSERT, DELETE].contains(&kind) {
        return Err(Fault::at(number::WRONG_KIND, words));
    }
    let rest = behind_steps(pattern)?;
    if kind == DELETE && pattern[0] == 1 {
        return Err(Fault::at(number::DELETE_ROOT, pattern));
    }
    if kind == INSERT {
        return behind_nodes(rest);
    }
    Ok(rest)
}

/// The first word, and the words behind it.
fn first(words: &[u16]) -> Result<(u16, &[u16]), Fault> {
    match words.split_first() {
        Some((&word, rest)) => Ok((word, rest)),
        None => Err(Fault::missing()),
    }
}

/// A count within its limit, and the words behind it, two at least for each.
fn counted(words: &[u16], limit: usize) -> Result<(usize, &[u16]), Fault> {
    let (count, rest) = first(words)?;
    let count = usize::from(count);
    if count == 0 {
        return Err(Fault::at(number::NO_WORDS, words));
    }
    if count > limit {
        return Err(Fault::at(number::PAST_LIMIT, words));
    }
    if rest.len() < 2 * count {
        return Err(Fault::missing());
    }
    Ok((count, rest))
}

/// The words behind a step count and its steps. The first step has axis 0, and
/// each later one 1 or 2.
fn behind_steps(words: &[u16]) -> Result<&[u16], Fault> {
    let (steps, mut rest) = counted(words, STEPS)?;
    for step in 0..steps {
        let axis = rest[0];
        let right = if step == 0 {
            axis == 0
        } else {
            axis == 1 || axis == 2
        };
        if !right {
            return Err(Fault::at(number::WRONG_AXIS, rest));
        }
        rest = &rest[2..];
    }
    Ok(rest)
}

/// The words behind a node count and its nodes. Node by node, the parent is 0 at
/// the root and a lower number elsewhere, and then the label is not 0.
fn behind_nodes(words: &[u16]) -> Result<&[u16], Fault> {
    let (nodes, mut rest) = counted(words, INSERTED_NODES)?;
    for node in 0..nodes {
        let parent = usize::from(rest[0]);
        let right = if node == 0 {
            parent == 0
        } else {
            parent < node
        };
        if !right {
            return Err(Fault::at(number::WRONG_PARENT, rest));
        }
        if rest[1] == 0 {
            return Err(Fault::at(number::LABEL_ZERO, &rest[1..]));
        }
        rest = &rest[2..];
    }
    Ok(rest)
}

#[cfg(test)]
mod tests {
    use super::*;

    /// A read frame of this many steps, all wildcard child steps.
    fn read(steps: usize) -> Vec<u16> {
        let mut words = vec![READ, steps as u16, 0, 0];
        words.extend([1, 0].repeat(steps - 1));
        words
    }

    /// An insert at the root of a chain of this many nodes.
    fn insert(nodes: usize) -> Vec<u16> {
        let mut words = vec![INSERT, 1, 0, 0, nodes as u16];
        let rows = (0..nodes).flat_map(|v| [v.saturating_sub(1) as u16, 1]);
        words.extend(rows);
        words
    }

    /// Reads with so many words in all, an even number and not 2; they are as
    /// long as can be.
    fn reads(words: usize) -> Vec<u16> {
        let mut batch = Vec::new();
        while batch.len() < words {
            let left = words - batch.len();
            let most = if left == 132 { 128 } else { 130 };
            batch.extend(read(left.min(most) / 2 - 1));
        }
        batch
    }

    /// A batch of 16,384 words: these at its end, and right frames before them.
    fn full(end: &[u16]) -> Vec<u16> {
        let room = BATCH_WORDS - end.len();
        let odd = if room % 2 == 1 { insert(1) } else { vec![] };
        let even = reads(room - odd.len());
        [&odd, &even, end].concat()
    }

    /// The refusal of a batch with this number and place.
    fn no<T>(number: usize, place: usize) -> Result<T, Refusal> {
        Err(Refusal {
            number,
            table: 6,
            place,
        })
    }

    #[test]
    fn the_edges_pass_and_one_more_is_refused() {
        assert_eq!(frames(&read(255)), Ok(1));
        assert_eq!(frames(&read(256)), no(2, 1));
        assert_eq!(frames(&insert(1_024)), Ok(1));
        assert_eq!(frames(&insert(1_025)), no(2, 4));
        assert_eq!(frames(&read(1).repeat(128)), Ok(128));
        assert_eq!(frames(&read(1).repeat(129)), no(10, 512));
        assert_eq!(frames(&full(&[])), Ok(127));
        assert_eq!(frames(&[]), Ok(0));
    }

    #[test]
    fn words_are_counted_before_frames() {
        assert_eq!(frames(&[0; 16_384]), no(8, 0));
        assert_eq!(frames(&[0; 16_385]), no(10, 16_384));
        assert_eq!(frames(&[0; 65_536]), no(10, 16_384));
        assert_eq!(frames(&read(1).repeat(4_097)), no(10, 16_384));
    }

    #[test]
    fn frames_are_counted_before_the_next_is_looked_at() {
        let most = read(1).repeat(128);
        assert_eq!(frames(&[&most, &[0][..]].concat()), no(10, 512));
        let long = [read(64).repeat(60), read(63).repeat(67)].concat();
        let longest = [insert(1), long, vec![0]].concat();
        assert_eq!(longest.len(), 16_384);
        assert_eq!(frames(&longest), no(10, 16_383));
        assert_eq!(frames(&longest[..16_383]), Ok(128));
    }

    #[test]
    fn refusals_come_in_order() {
        assert_eq!(frames(&[0]), no(8, 0));
        assert_eq!(frames(&[1]), no(9, 1));
        assert_eq!(frames(&[1, 0]), no(1, 1));
        assert_eq!(frames(&[1, 256]), no(2, 1));
        assert_eq!(frames(&[1, 1, 1]), no(9, 3));
        assert_eq!(frames(&[1, 1, 1, 0]), no(3, 2));
        assert_eq!(frames(&[3, 1, 1, 0]), no(3, 2));
        assert_eq!(frames(&[3, 1, 0, 0]), no(6, 1));
        assert_eq!(frames(&[2, 1, 0, 0]), no(9, 4));
        assert_eq!(frames(&[2, 1, 0, 0, 0]), no(1, 4));
        assert_eq!(frames(&[2, 1, 0, 0, 1_025]), no(2, 4));
        assert_eq!(frames(&[2, 1, 0, 0, 1, 1]), no(9, 6));
        assert_eq!(frames(&[2, 1, 0, 0, 1, 1, 0]), no(4, 5));
        assert_eq!(frames(&[2, 1, 0, 0, 1, 0, 0]), no(5, 6));
        assert_eq!(frames(&[2, 1, 0, 0, 2, 0, 0, 1, 1]), no(5, 6));
        assert_eq!(frames(&[2, 1, 0, 0, 2, 0, 1, 1, 0]), no(4, 7));
    }

    #[test]
    fn places_are_counted_from_the_start_of_the_batch() {
        let behind = |end: &[u16]| frames(&[&read(1), &insert(2), end].concat());
        assert_eq!(behind(&[4]), no(8, 13));
        assert_eq!(behind(&[1]), no(9, 14));
        assert_eq!(behind(&[1, 0]), no(1, 14));
        assert_eq!(behind(&[1, 256]), no(2, 14));
        assert_eq!(behind(&[1, 3, 0, 0, 2, 0, 0, 0]), no(3, 19));
        assert_eq!(behind(&[3, 1, 0, 0]), no(6, 14));
        assert_eq!(behind(&[2, 1, 0, 0, 2, 0, 1, 1, 1]), no(4, 20));
        assert_eq!(behind(&[2, 1, 0, 0, 2, 0, 1, 0, 0]), no(5, 21));
    }

    #[test]
    fn places_reach_to_the_end_of_the_longest_batch() {
        let ends_in = |end: &[u16]| frames(&full(end));
        assert_eq!(ends_in(&[0]), no(8, 16_383));
        assert_eq!(ends_in(&[1]), no(9, 16_384));
        assert_eq!(ends_in(&[1, 0]), no(1, 16_383));
        assert_eq!(ends_in(&[1, 256]), no(2, 16_383));
        assert_eq!(ends_in(&[1, 1, 0]), no(9, 16_384));
        assert_eq!(ends_in(&[1, 1, 1, 0]), no(3, 16_382));
        assert_eq!(ends_in(&[1, 2, 0, 0, 3, 0]), no(3, 16_382));
        assert_eq!(ends_in(&[3, 1, 0, 0]), no(6, 16_381));
        assert_eq!(ends_in(&[2, 1, 0, 0]), no(9, 16_384));
        assert_eq!(ends_in(&[2, 1, 0, 0, 0]), no(1, 16_383));
        assert_eq!(ends_in(&[2, 1, 0, 0, 1_025]), no(2, 16_383));
        assert_eq!(ends_in(&[2, 1, 0, 0, 1, 0]), no(9, 16_384));
        assert_eq!(ends_in(&[2, 1, 0, 0, 1, 1, 1]), no(4, 16_382));
        assert_eq!(ends_in(&[2, 1, 0, 0, 1, 0, 0]), no(5, 16_383));
    }

    #[test]
    fn the_last_step_and_the_last_node_have_places() {
        let mut steps = read(255);
        steps[510] = 0;
        assert_eq!(frames(&steps), no(3, 510));
        let mut nodes = insert(1_024);
        nodes[2_052] = 0;
        assert_eq!(frames(&nodes), no(5, 2_052));
        nodes[2_051] = 1_023;
        assert_eq!(frames(&nodes), no(4, 2_051));
    }

    #[test]
    fn a_lone_frame_has_nothing_behind_it() {
        assert_eq!(lone_frame(&read(1)), Ok(()));
        assert_eq!(lone_frame(&[]), no(9, 0));
        assert_eq!(lone_frame(&read(1)[..3]), no(9, 3));
        assert_eq!(lone_frame(&read(1).repeat(2)), no(9, 4));
        assert_eq!(lone_frame(&[insert(2), vec![0]].concat()), no(9, 9));
        assert_eq!(lone_frame(&[3, 1, 0, 0, 0]), no(6, 1));
    }
}
