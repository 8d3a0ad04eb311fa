//! The plan of a batch.

use super::verdict::{delete_deep, delete_way, insert_deep, insert_way};
use super::{checks, Counted, FRAMES, STEPS, TREE_NODES, WORDS};

/// A frame where it stands in the batch.
#[derive(Clone, Copy)]
struct Frame<'a> {
    kind: u16,
    steps: &'a [u16],
    nodes: &'a [u16],
    end: usize,
}

/// A count and as many pairs behind it, at a place: 9, 1, 2, 9.
fn counted(batch: &[u16], at: usize, limit: usize) -> Result<&[u16], usize> {
    let count = *batch.get(at).ok_or(9usize)? as usize;
    if count == 0 {
        return Err(1);
    }
    if count > limit {
        return Err(2);
    }
    batch.get(at + 1..at + 1 + 2 * count).ok_or(9)
}

/// The frame at a place, or its refusal.
fn frame(batch: &[u16], number: usize, at: usize) -> Result<Frame<'_>, usize> {
    if number >= FRAMES {
        return Err(10);
    }
    let kind = batch[at];
    if !(1..=3).contains(&kind) {
        return Err(8);
    }
    let steps = counted(batch, at + 1, STEPS)?;
    checks::pattern(steps)?;
    if kind == 3 && steps.len() == 2 {
        return Err(6);
    }
    let end = at + 2 + steps.len();
    if kind != 2 {
        return Ok(Frame {
            kind,
            steps,
            nodes: &[],
            end,
        });
    }
    let nodes = counted(batch, end, TREE_NODES)?;
    checks::tree(nodes)?;
    Ok(Frame {
        kind,
        steps,
        nodes,
        end: end + 1 + nodes.len(),
    })
}

/// Every frame is checked before a word is written.
fn checked(batch: &[u16], out: &[u16]) -> Counted {
    if batch.len() > WORDS {
        return Err(10);
    }
    let (mut at, mut number) = (0, 0);
    while at < batch.len() {
        at = frame(batch, number, at)?.end;
        number += 1;
    }
    if out.len() < number {
        return Err(7);
    }
    Ok(number)
}

/// Whether a read and an update conflict deeply.
fn deep_conflict(read: Frame, update: Frame) -> bool {
    if update.kind == 3 {
        delete_deep(read.steps, update.steps)
    } else {
        insert_deep(read.steps, update.steps, update.nodes)
    }
}

/// Whether a read and an update conflict.
fn conflict(read: Frame, update: Frame) -> bool {
    let mut witness = [0; 2 * (STEPS + STEPS - 1)];
    if update.kind == 3 {
        delete_way(read.steps, update.steps, &mut witness) != 0
    } else {
        insert_way(read.steps, update.steps, update.nodes, &mut witness) != 0
    }
}

/// One word a frame: an update's number, a read's slot. Mode 1 is node, 2 is deep.
pub fn plan(mode: usize, batch: &[u16], out: &mut [u16]) -> Counted {
    let related = match mode {
        1 => conflict,
        2 => deep_conflict,
        _ => return Err(8),
    };
    let frames = checked(batch, out)?;
    let mut updates: Vec<Frame> = Vec::new();
    let mut at = 0;
    for (number, word) in out.iter_mut().enumerate().take(frames) {
        let here = frame(batch, number, at)?;
        at = here.end;
        *word = if here.kind == 1 {
            let nearest = updates.iter().rposition(|update| related(here, *update));
            nearest.map_or(0, |k| k as u16 + 1)
        } else {
            updates.push(here);
            updates.len() as u16
        };
    }
    Ok(frames)
}
