//! The shortest common ways of a read and an update, a row of numbers at a time, and the way of a cell by its moves.

use super::{label, stays, STEPS};

/// At the nearest label of a way both land, the read lands, or the update lands.
const BOTH: u8 = 0;
const READ: u8 = 1;
const UPDATE: u8 = 2;

/// Both patterns, and for each whether its last step may stay for nodes below it.
pub struct Pair<'a> {
    pub read: &'a [u16],
    pub read_below: bool,
    pub update: &'a [u16],
    pub update_below: bool,
}

/// One label more, where there is a way and the move may be made.
fn onward(may: bool, way: u16) -> u16 {
    if may && way != 0 {
        way + 1
    } else {
        0
    }
}

/// Whether the first of two ways is there, and the second is not or is no shorter.
fn sooner(a: u16, b: u16) -> bool {
    a != 0 && (b == 0 || a <= b)
}

/// Whether two steps can land on one node.
fn agree(a: u16, b: u16) -> bool {
    a == 0 || b == 0 || a == b
}

impl Pair<'_> {
    fn read_stays(&self, i: usize) -> bool {
        if 2 * i + 2 < self.read.len() {
            stays(self.read, i)
        } else {
            self.read_below
        }
    }

    fn update_stays(&self, j: usize) -> bool {
        if 2 * j + 2 < self.update.len() {
            stays(self.update, j)
        } else {
            self.update_below
        }
    }

    /// The cell of two states, from the numbers before it: its number and its move.
    fn cell(&self, i: usize, j: usize, corner: u16, above: u16, before: u16) -> (u16, u8) {
        let may = agree(label(self.read, i), label(self.update, j));
        if i == 0 && j == 0 {
            return (u16::from(may), BOTH);
        }
        let both = if i > 0 && j > 0 { onward(may, corner) } else { 0 };
        let read = if i > 0 { onward(self.update_stays(j), above) } else { 0 };
        let update = if j > 0 { onward(self.read_stays(i), before) } else { 0 };
        let (alone, step) = if sooner(read, update) {
            (read, READ)
        } else {
            (update, UPDATE)
        };
        if sooner(both, alone) {
            (both, BOTH)
        } else {
            (alone, step)
        }
    }

    /// Goes through the rows and tells for each state of the read the number in the update's last column. Moves are kept
    /// as far as there is room.
    pub fn rows(&self, moves: &mut [u8], mut told: impl FnMut(usize, u16)) {
        let n = self.update.len() / 2;
        let mut row = [0; STEPS];
        for i in 0..self.read.len() / 2 {
            let (mut corner, mut before) = (0, 0);
            for (j, number) in row.iter_mut().enumerate().take(n) {
                let above = *number;
                let (own, step) = self.cell(i, j, corner, above, before);
                if let Some(kept) = moves.get_mut(n * i + j) {
                    *kept = step;
                }
                (*number, corner, before) = (own, above, own);
            }
            told(i, before);
        }
    }

    /// Writes the way of state i, of so many labels, as a chain, from its last node back.
    pub fn trace(&self, moves: &[u8], labels: u16, mut i: usize, out: &mut [u16]) {
        let n = self.update.len() / 2;
        let mut j = n - 1;
        for node in (0..usize::from(labels)).rev() {
            let (read, update) = (label(self.read, i), label(self.update, j));
            let step = moves[n * i + j];
            let name = match step {
                BOTH if read == 0 => update,
                UPDATE => update,
                _ => read,
            };
            out[2 * node] = node.saturating_sub(1) as u16;
            out[2 * node + 1] = name.max(1);
            i = i.saturating_sub(usize::from(step != UPDATE));
            j = j.saturating_sub(usize::from(step != READ));
        }
    }
}
