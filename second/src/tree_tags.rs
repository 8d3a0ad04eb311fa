//! Table 8: trees written as nested tags, and tables that are refused.

use crate::buffers::{after, shown};
use crate::counts::{Count, Counts};
use crate::rows::rows;
use crate::tag_trees::{damaged, large, shapes, with_labels, LARGE_SIZES, SHAPES, WIDTHS};
use crate::tally::Tally;
use crate::tree_texts;
use std::io::{self, Write};

/// Shapes that are shown have at most this many nodes.
const MOST_SHOWN: usize = 4;

/// Bytes of the buffer that is shown, some more than any shape needs.
const SHOWN_ROOM: usize = 36;

/// The labels of small trees, of which there are all.
const LABELS: [u16; 3] = [1, 2, 3];

/// Small trees have at most this many nodes.
const MOST_NODES: usize = 5;

/// Trees with labels of every width have at most this many nodes.
const MOST_WIDE: usize = 3;

/// Bytes of their whole buffer, some more than any needs.
const SMALL_ROOM: usize = 48;

/// Tables of small words have at most this many words.
const MOST_WORDS: usize = 6;

/// What their words are.
const WORDS: &[u16] = &[0, 1, 2, 3];

/// Bytes of the longest buffer that they are written into, one more than any needs.
const WORDS_ROOM: usize = 24;

/// Bytes of their whole buffer, some more than any needs.
const LARGE_ROOM: usize = 17_408;

/// How many words a damaged tree is cut to.
const DAMAGED_WORDS: [usize; 6] = [0, 1, 2_047, 2_048, 2_049, 2_050];

/// What each byte of a buffer is before a call.
const FILLING: u8 = b'.';

/// Writes table 8.
pub fn write(out: &mut dyn Write) -> io::Result<Counts> {
    let shown = write_shown(out)?;
    let small = write_small(out)?;
    let words = write_words(out)?;
    let large = write_large(out)?;
    let damaged = write_damaged(out)?;
    Ok(vec![
        Count::new("shown-tags", shown),
        Count::new("small-tags", small),
        Count::new("word-tags", words),
        Count::new("large-tags", large),
        Count::new("damaged-tags", damaged),
    ])
}

/// What writing each table into three rooms answers.
fn tally_of(tables: impl Iterator<Item = Vec<u16>>, whole: usize) -> Tally {
    let mut tally = Tally::default();
    for words in tables {
        tally.take_rooms(|room| tree_texts::write(&words, room), whole, FILLING);
    }
    tally
}

/// A line for each shape and for each width of a label; gives the number of calls.
fn write_shown(out: &mut dyn Write) -> io::Result<usize> {
    let shapes = (1..=MOST_SHOWN).flat_map(shapes).map(|t| ("shape", t));
    let widths = with_labels(1, &WIDTHS).map(|t| ("width", t));
    let mut calls = 0;
    for (name, words) in shapes.chain(widths) {
        let answer = tree_texts::write(&words, SHOWN_ROOM);
        let buffer = after(&answer, SHOWN_ROOM, FILLING);
        let buffer = String::from_utf8_lossy(&buffer);
        writeln!(out, "{name} {buffer} {}", shown(&answer))?;
        calls += 1;
    }
    Ok(calls)
}

/// A line for each number of nodes of small trees, and of those with labels of
/// every width; gives the number of calls.
fn write_small(out: &mut dyn Write) -> io::Result<usize> {
    let mut calls = 0;
    for nodes in 1..=MOST_NODES {
        let tally = tally_of(with_labels(nodes, &LABELS), SMALL_ROOM);
        calls += tally.line(out, "trees", nodes)?;
    }
    for nodes in 1..=MOST_WIDE {
        let tally = tally_of(with_labels(nodes, &WIDTHS), SMALL_ROOM);
        calls += tally.line(out, "widths", nodes)?;
    }
    Ok(calls)
}

/// A line for each number of words of the tables of small words, each into every
/// room; gives the number of calls.
fn write_words(out: &mut dyn Write) -> io::Result<usize> {
    let mut calls = 0;
    for length in 0..=MOST_WORDS {
        let mut tally = Tally::default();
        for words in rows(WORDS, length) {
            for room in 0..=WORDS_ROOM {
                tally.take(&tree_texts::write(&words, room), room, FILLING);
            }
        }
        calls += tally.line(out, "words", length)?;
    }
    Ok(calls)
}

/// A line for each shape of large trees; gives the number of calls.
fn write_large(out: &mut dyn Write) -> io::Result<usize> {
    let mut calls = 0;
    for shape in 0..SHAPES.len() {
        let trees = LARGE_SIZES.map(|nodes| large(shape, nodes));
        let tally = tally_of(trees.into_iter(), LARGE_ROOM);
        calls += tally.line(out, "large", shape)?;
    }
    Ok(calls)
}

/// A line for each number of words of the damaged trees; gives the number of calls.
fn write_damaged(out: &mut dyn Write) -> io::Result<usize> {
    let mut calls = 0;
    for words in DAMAGED_WORDS {
        let tally = tally_of(damaged(words), LARGE_ROOM);
        calls += tally.line(out, "damaged", words)?;
    }
    Ok(calls)
}

#[cfg(test)]
mod tests {
    use super::*;
    use crate::tally::lines;

    /// The numbers behind a line's name, the digest left out.
    fn numbers(line: &str) -> Vec<usize> {
        let words = line.split(' ').skip(1).take(4);
        words.map(|word| word.parse().unwrap()).collect()
    }

    #[test]
    fn what_is_shown_can_be_read() {
        let lines = lines(write_shown);
        assert_eq!(lines.len(), 20);
        assert_eq!(lines[1], "shape <n1><n2/></n1>...................... ok 14");
        assert_eq!(lines[19], "width <n65535/>........................... ok 9");
        for line in &lines {
            let parts: Vec<&str> = line.split(' ').collect();
            let text = parts[1].trim_end_matches('.');
            assert_eq!(parts[1].len(), SHOWN_ROOM);
            assert_eq!(parts[3], text.len().to_string());
        }
    }

    #[test]
    fn of_three_calls_a_right_tree_is_written_by_two() {
        let lines = lines(write_small);
        assert_eq!(lines.len(), 8);
        let trees = [3, 9, 54, 486, 5_832, 10, 100, 2_000];
        for (line, trees) in lines.iter().zip(trees) {
            let numbers = numbers(line);
            assert_eq!(numbers[1..3], [3 * trees, 2 * trees]);
        }
    }

    #[test]
    fn tables_of_words_are_written_where_they_fit() {
        let found: Vec<Vec<usize>> = lines(write_words).iter().map(|l| numbers(l)).collect();
        let rooms = WORDS_ROOM + 1;
        let fitting = |trees: usize, bytes: usize| trees * (rooms - bytes);
        let chains_and_stars = fitting(27, 23) + fitting(27, 19);
        let written = [0, 0, fitting(3, 5), 0, fitting(9, 14), 0, chains_and_stars];
        for (length, numbers) in found.iter().enumerate() {
            assert_eq!(numbers[1], rooms * 4usize.pow(length as u32));
            assert_eq!(numbers[2], written[length]);
        }
    }

    #[test]
    fn no_text_is_longer_than_the_longest() {
        let longest = |shape: usize| tree_texts::write(&large(shape, 1_024), LARGE_ROOM);
        let lengths = [0, 1, 2, 3, 4, 5].map(|shape| longest(shape).unwrap().len());
        assert_eq!(lengths[0], 1_023 * 17 + 9);
        assert!(lengths[1..].iter().all(|&length| length < lengths[0]));
    }

    #[test]
    fn of_the_damaged_trees_one_is_written() {
        let found: Vec<Vec<usize>> = lines(write_damaged).iter().map(|l| numbers(l)).collect();
        for numbers in found {
            let right = usize::from(numbers[0] == 2_048);
            assert_eq!(numbers[1..3], [50 + right, 2 * right]);
        }
    }
}
