//! Table 9, mode lines: one before a batch's lines, and one where none may stand.

use crate::printer::{answer, text_of};
use crate::word_damages::{damages, harmed, Damage};
use std::io::{self, Write};

/// The mode line that names node mode.
const NODE_LINE: [u16; 2] = [4, 1];

/// The words of an input's lines.
type Lines = Vec<Vec<u16>>;

/// Writes the lines of a batch; gives the number of inputs tried.
pub fn write(out: &mut dyn Write, batch: usize, frames: &[&[u16]]) -> io::Result<usize> {
    let rows = [
        ("mode", damaged(frames)),
        ("second", in_second_line(frames)),
        ("behind", damaged_behind(frames)),
    ];
    let mut tried = 0;
    for (name, inputs) in rows {
        let of_input = |lines: &Lines| format!(" {}", answer(&text_of(lines)));
        let answers: String = inputs.iter().map(of_input).collect();
        writeln!(out, "{batch} {name}{answers}")?;
        tried += inputs.len();
    }
    Ok(tried)
}

/// The batch behind a mode line with each damage of its first word, then of its second.
fn damaged(frames: &[&[u16]]) -> Vec<Lines> {
    let places = (0..NODE_LINE.len()).flat_map(|word| damages().map(move |damage| (word, damage)));
    places
        .map(|place| put_in(frames, 0, &harmed(&NODE_LINE, place)))
        .collect()
}

/// The mode line as the second line: behind another one, then behind the first frame.
fn in_second_line(frames: &[&[u16]]) -> Vec<Lines> {
    let behind_frame = put_in(frames, 1, &NODE_LINE);
    let mut behind_mode = put_in(frames, 0, &NODE_LINE);
    behind_mode.insert(1, NODE_LINE.to_vec());
    vec![behind_mode, behind_frame]
}

/// The batch behind a mode line, with kind 0 in each of its lines.
fn damaged_behind(frames: &[&[u16]]) -> Vec<Lines> {
    let with_kind_0 = |line: usize| {
        let mut lines = put_in(frames, 0, &NODE_LINE);
        lines[line] = harmed(&lines[line], (0, Damage::Replaced(0)));
        lines
    };
    (1..=frames.len()).map(with_kind_0).collect()
}

/// The lines of a batch with another behind so many of them.
fn put_in(frames: &[&[u16]], place: usize, line: &[u16]) -> Lines {
    let mut lines: Lines = frames.iter().map(|frame| frame.to_vec()).collect();
    lines.insert(place, line.to_vec());
    lines
}

#[cfg(test)]
mod tests {
    use super::*;
    use crate::damage::BATCHES;

    /// The lines that a batch, counted from 1, has in the table.
    fn lines(batch: usize) -> Vec<String> {
        let mut out = Vec::new();
        write(&mut out, batch, BATCHES[batch - 1]).unwrap();
        let text = String::from_utf8(out).unwrap();
        text.lines().map(String::from).collect()
    }

    #[test]
    fn a_mode_line_has_46_damages() {
        let first = format!(
            "1:8:0{} ok{} 1:9:1 1:9:2",
            " 1:9:2".repeat(3),
            " 1:8:0".repeat(16)
        );
        let second = format!("1:8:1 ok ok{} 1:9:1 1:9:2", " 1:8:1".repeat(18));
        for batch in 1..=BATCHES.len() {
            assert_eq!(lines(batch)[0], format!("{batch} mode {first} {second}"));
        }
    }

    #[test]
    fn a_mode_line_is_refused_as_second_line() {
        assert_eq!(lines(2)[1], "2 second 2:8:0 2:8:0");
        assert_eq!(lines(3)[1], "3 second 2:8:0 2:8:0");
    }

    #[test]
    fn behind_a_mode_line_lines_have_one_number_more() {
        assert_eq!(lines(4)[2], "4 behind 2:8:0 3:8:0 4:8:0");
        assert_eq!(lines(4).len(), 3);
    }

    #[test]
    fn inputs_are_counted() {
        let tried = write(&mut io::sink(), 1, BATCHES[0]).unwrap();
        assert_eq!(tried, 46 + 2 + 5);
    }
}
