//! Table 9, plans: what the printer prints for lines without a fault, in each mode.

use crate::batch::{DELETE, READ};
use crate::checks::pattern;
use crate::mode::Mode;
use crate::pattern::Pattern;
use crate::plans::{plan, Frame};
use crate::printer::line_of;
use crate::refusal;
use crate::tree::{rows_of, Row};
use crate::verdict::{self, Operation};
use std::io::{self, Write};

/// Inputs by the number of their mode line, 0 where there is none.
const MODES: [(usize, Mode); 3] = [(0, Mode::Deep), (1, Mode::Node), (2, Mode::Deep)];

/// The parts of a frame; only an insert has nodes.
struct Parts {
    kind: u16,
    pattern: Pattern,
    inserted: Vec<Row>,
}

/// Writes a line for a batch without a mode line and with each; gives their number.
pub fn write(out: &mut dyn Write, batch: usize, frames: &[&[u16]]) -> io::Result<usize> {
    for (number, mode) in MODES {
        let lines = printed(frames, mode).join(",");
        writeln!(out, "{batch} plan {number} {lines},")?;
    }
    Ok(MODES.len())
}

/// The printed lines of a batch: kind, frame number from 1 and plan word.
fn printed(frames: &[&[u16]], mode: Mode) -> Vec<String> {
    let parts: Vec<Parts> = frames.iter().map(|frame| parts_of(frame)).collect();
    let batch: Vec<Frame<&Pattern, Operation>> = parts.iter().map(Parts::frame).collect();
    let words = plan(&batch, |update, read| mode.keeps(verdict::of(read, update)));
    let line = |(frame, word): (usize, usize)| {
        let kind = parts[frame].kind;
        line_of(&[kind, frame as u16 + 1, word as u16])
    };
    words.into_iter().enumerate().map(line).collect()
}

/// The parts of a frame without a fault.
fn parts_of(frame: &[u16]) -> Parts {
    let behind = 2 + 2 * usize::from(frame[1]);
    let nodes = frame.get(behind + 1..).unwrap_or_default();
    Parts {
        kind: frame[0],
        pattern: pattern(&frame[2..behind], refusal::READ).expect("the steps have no fault"),
        inserted: rows_of(nodes),
    }
}

impl Parts {
    /// What the verdict needs.
    fn frame(&self) -> Frame<&Pattern, Operation<'_>> {
        match self.kind {
            READ => Frame::Read(&self.pattern),
            DELETE => Frame::Update(Operation::Delete(&self.pattern)),
            _ => Frame::Update(Operation::Insert(&self.pattern, &self.inserted)),
        }
    }
}

#[cfg(test)]
mod tests {
    use super::*;
    use crate::damage::BATCHES;

    #[test]
    fn the_listing_of_document_01_is_in_node_mode() {
        let lines = [
            "000300010001",
            "000200020002",
            "000100030001",
            "000100040002",
            "000100050000",
        ];
        assert_eq!(printed(BATCHES[0], Mode::Node), lines);
    }

    #[test]
    fn in_deep_mode_its_last_read_stays_behind_both_updates() {
        let [.., last] = &printed(BATCHES[0], Mode::Deep)[..] else {
            panic!("a line a frame");
        };
        assert_eq!(last, "000100050002");
    }

    #[test]
    fn a_batch_has_a_line_for_each_mode() {
        let mut out = Vec::new();
        assert_eq!(write(&mut out, 3, BATCHES[2]).unwrap(), 3);
        let lines = "3 plan 0 000100010000,\n3 plan 1 000100010000,\n3 plan 2 000100010000,\n";
        assert_eq!(String::from_utf8(out).unwrap(), lines);
    }
}
