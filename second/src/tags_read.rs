//! Table 11: tags read into tree tables.

use crate::buffers::{after, shown};
use crate::counts::{Count, Counts};
use crate::deep_tags;
use crate::read_trees::{read, Meaning};
use crate::right_tags::RightTags;
use crate::rows::rows;
use crate::single_bytes::write_runs;
use crate::tag_damages::{at_length, damaged, inside_another};
use crate::tag_levels::meaning;
use crate::tag_trees::{large, LARGE_SIZES, SHAPES};
use crate::tags::text_of;
use crate::tally::Tally;
use crate::tree::rows_of;
use std::io::{self, Write};

/// What each word of a buffer is before a call.
const FILLING: u16 = 7;

/// The texts in which a byte takes each value.
const BYTE_TEXTS: [&[u8]; 2] = [b"<n12><n3/></n12>", b"<n65535></n65535>"];

/// Words of the buffer that they are read into.
const BYTE_ROOM: usize = 4;

/// Short texts have at most this many bytes.
const MOST_TEXT: usize = 7;

/// What their bytes are.
const TEXT_BYTES: &[u8] = b"</>n01";

/// The digits among these.
const DIGITS: &[u8] = b"01";

/// Words of the whole buffer that they are read into, one more than any needs.
const TEXT_ROOM: usize = 3;

/// What rows of tags are made of.
const TAGS: [&[u8]; 6] = [b"<n1>", b"</n1>", b"<n1/>", b"<n12>", b"</n12>", b"<n2/>"];

/// How many tags a row has at most.
const MOST_TAGS: usize = 6;

/// How many it has at most where every start of it is read.
const MOST_CUT: usize = 4;

/// Words of the whole buffer that they are read into, one more than any needs.
const ROW_ROOM: usize = 13;

/// Labels as they are written, right ones and wrong ones.
const LABELS: [&str; 16] = [
    "", "0", "00", "01", "1", "9", "10", "6553", "9999", "65535", "65536", "65540", "66000",
    "99999", "100000", "655350",
];

/// Words of the buffer that a text with such a label is read into.
const LABEL_ROOM: usize = 3;

/// Trees of so many nodes are put inside another element.
const INSIDE_SIZES: [usize; 3] = [1_022, 1_023, 1_024];

/// Trees of so many nodes have their texts damaged.
const DAMAGED_NODES: usize = 96;

/// Words of the whole buffer that large trees are read into, one more than any needs.
const LARGE_ROOM: usize = 2_049;

/// Writes table 11.
pub fn write(out: &mut dyn Write) -> io::Result<Counts> {
    let bytes = write_bytes(out)?;
    let texts = write_texts(out)?;
    let rows = write_rows(out)?;
    let labels = write_labels(out)?;
    let large = write_large(out)?;
    let deep = deep_tags::write(out)?;
    Ok(vec![
        Count::new("tag-bytes", bytes),
        Count::new("tag-texts", texts),
        Count::new("tag-rows", rows),
        Count::new("tag-labels", labels),
        Count::new("large-tag-texts", large),
        Count::new("deep-tag-texts", deep),
    ])
}

/// For each text and each place in it, the end among them, a line for each run of bytes; gives the number of calls.
fn write_bytes(out: &mut dyn Write) -> io::Result<usize> {
    let mut calls = 0;
    for (number, text) in BYTE_TEXTS.iter().enumerate() {
        for place in 0..=text.len() {
            let name = format!("tag-byte {number} {place}");
            calls += write_runs(out, &name, |byte| {
                let behind = text.get(place + 1..).unwrap_or_default();
                let changed = [&text[..place], &[byte], behind].concat();
                read(&meaning(&changed), BYTE_ROOM)
            })?;
        }
    }
    Ok(calls)
}

/// A line for each length of short texts; gives the number of calls.
fn write_texts(out: &mut dyn Write) -> io::Result<usize> {
    let right = RightTags::over(DIGITS, MOST_TEXT);
    let mut calls = 0;
    for length in 0..=MOST_TEXT {
        let meanings = rows(TEXT_BYTES, length).map(|text| right.meaning(&text));
        calls += tally_of(meanings, TEXT_ROOM).line(out, "tag-texts", length)?;
    }
    Ok(calls)
}

/// A line for each number of tags in a row, and one for each where every start of a row is read; gives the number of calls.
fn write_rows(out: &mut dyn Write) -> io::Result<usize> {
    let mut calls = 0;
    for tags in 0..=MOST_TAGS {
        let meanings = rows(&TAGS, tags).map(|row| meaning(&row.concat()));
        calls += tally_of(meanings, ROW_ROOM).line(out, "tag-rows", tags)?;
    }
    for tags in 0..=MOST_CUT {
        let meanings = rows(&TAGS, tags).flat_map(|row| {
            let text = row.concat();
            (0..text.len()).map(move |length| meaning(&text[..length]))
        });
        calls += tally_of(meanings, ROW_ROOM).line(out, "cut-rows", tags)?;
    }
    Ok(calls)
}

/// A line for each label in each tag that it may stand in: the text, the buffer and the answer; gives the number of calls.
fn write_labels(out: &mut dyn Write) -> io::Result<usize> {
    let mut calls = 0;
    for label in LABELS {
        let texts = [
            format!("<n{label}/>"),
            format!("<n{label}></n{label}>"),
            format!("<n6553></n{label}>"),
            format!("<n65535></n{label}>"),
        ];
        for text in texts {
            let answer = read(&meaning(text.as_bytes()), LABEL_ROOM);
            let words = after(&answer, LABEL_ROOM, FILLING);
            let words: Vec<String> = words.iter().map(u16::to_string).collect();
            writeln!(out, "label {text} {} {}", words.join(" "), shown(&answer))?;
            calls += 1;
        }
    }
    Ok(calls)
}

/// For each shape a line for its large trees, for the same at length, for those inside another element, whole and cut, and
/// for damaged texts; gives the number of calls.
fn write_large(out: &mut dyn Write) -> io::Result<usize> {
    let mut calls = 0;
    for shape in 0..SHAPES.len() {
        let tags = |nodes: usize| text_of(&rows_of(&large(shape, nodes)));
        let text = |nodes: usize| tags(nodes).into_bytes();
        let long = |nodes: usize| at_length(&tags(nodes));
        let mut line = |name: &str, texts: Vec<Vec<u8>>| {
            let meanings = texts.iter().map(|text| meaning(text));
            tally_of(meanings, LARGE_ROOM).line(out, name, shape)
        };
        let inside = INSIDE_SIZES.map(|nodes| inside_another(&text(nodes)));
        let cut = inside
            .each_ref()
            .map(|text| text[..text.len() - 1].to_vec());
        calls += line("tag-large", LARGE_SIZES.map(text).to_vec())?;
        calls += line("tag-long", LARGE_SIZES.map(long).to_vec())?;
        calls += line("tag-inside", inside.to_vec())?;
        calls += line("tag-inside-cut", cut.to_vec())?;
        calls += line("tag-damaged", damaged(&text(DAMAGED_NODES)).collect())?;
    }
    Ok(calls)
}

/// What reading each text into three rooms answers.
fn tally_of(meanings: impl Iterator<Item = Meaning>, whole: usize) -> Tally {
    let mut tally = Tally::default();
    for meaning in meanings {
        tally.take_rooms(|room| read(&meaning, room), whole, FILLING);
    }
    tally
}

#[cfg(test)]
mod tests {
    use super::*;
    use crate::tally::lines;

    /// Calls and calls that read, of the lines with a name.
    fn calls(lines: &[String], name: &str) -> Vec<[usize; 2]> {
        let words = lines.iter().map(|line| line.split(' ').collect());
        let named = words.filter(|words: &Vec<&str>| words[0] == name);
        let numbers = named.map(|words| [words[2], words[3]].map(|word| word.parse().unwrap()));
        numbers.collect()
    }

    #[test]
    fn runs_cover_every_byte() {
        let mut out = Vec::new();
        assert_eq!(write_bytes(&mut out).unwrap(), (17 + 18) * 256);
        let lines = lines(write_bytes);
        let at = |start: &str| lines.iter().filter(|line| line.starts_with(start)).count();
        assert_eq!(lines[1], "tag-byte 0 0 60 60 ok 4");
        assert_eq!(at("tag-byte 0 16 "), 1);
        assert_eq!(at("tag-byte 1 17 "), 1);
    }

    #[test]
    fn short_texts_are_single_nodes() {
        let read: Vec<usize> = calls(&lines(write_texts), "tag-texts")
            .iter()
            .map(|c| c[1])
            .collect();
        assert_eq!(read, [0, 0, 0, 0, 0, 2, 4, 8]);
    }

    /// How many rows of so many tags are elements beside each other, of two kinds with one tag and two with more.
    fn beside(tags: usize) -> usize {
        let first = |own: usize| match own {
            1 => 2,
            _ => 2 * beside(own - 2),
        };
        match tags {
            0 => 1,
            _ => (1..=tags).map(|own| first(own) * beside(tags - own)).sum(),
        }
    }

    #[test]
    fn as_many_rows_are_right_as_can_be_made() {
        let found = calls(&lines(write_rows), "tag-rows");
        for (tags, [calls, read]) in found.into_iter().enumerate() {
            let right = match tags {
                0 => 0,
                1 => 2,
                _ => 2 * beside(tags - 2),
            };
            assert_eq!(
                [calls, read],
                [2 * 6usize.pow(tags as u32) + right, 2 * right]
            );
        }
    }

    #[test]
    fn labels_are_shown_with_their_words() {
        let lines = lines(write_labels);
        let has = |line: &str| assert!(lines.contains(&line.to_string()), "{line}");
        assert_eq!(lines.len(), 64);
        has("label <n/> 7 7 7 14 7 2");
        has("label <n01/> 7 7 7 14 7 2");
        has("label <n65535/> 0 65535 7 ok 2");
        has("label <n65536/> 7 7 7 14 7 6");
        has("label <n100000></n100000> 7 7 7 14 7 7");
        has("label <n6553></n65535> 7 7 7 14 7 14");
        has("label <n65535></n6553> 7 7 7 14 7 15");
    }

    #[test]
    fn a_tree_at_length_is_the_same_tree() {
        let lines = lines(write_large);
        let behind = |name: &str| -> Vec<&str> {
            let names = lines.iter().filter_map(|line| line.strip_prefix(name));
            names.collect()
        };
        assert_eq!(behind("tag-large "), behind("tag-long "));
    }

    #[test]
    fn one_node_past_the_limit_is_refused() {
        let lines = lines(write_large);
        assert!(calls(&lines, "tag-large").iter().all(|c| *c == [24, 16]));
        assert!(calls(&lines, "tag-long").iter().all(|c| *c == [24, 16]));
        assert!(calls(&lines, "tag-inside").iter().all(|c| *c == [8, 4]));
        assert!(calls(&lines, "tag-inside-cut").iter().all(|c| *c == [6, 0]));
    }
}
