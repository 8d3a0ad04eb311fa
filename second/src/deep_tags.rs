//! Table 11, deep texts: thousands of elements inside each other, and end tags that are wrong.

use crate::read_trees::read;
use crate::tag_levels::meaning;
use std::io::{self, Write};

/// The labels of the levels, again and again; some begin with others.
const LABELS: [&str; 7] = ["1", "12", "2", "21", "123", "7", "10"];

/// How a text goes: so many levels down, so many of them up and down again, and then all up.
struct Way {
    down: usize,
    again: usize,
}

/// The ways. The longest text has fewer than 100,000 bytes.
const WAYS: [Way; 6] = [
    Way::once(1_200),
    Way::once(4_096),
    Way::once(4_097),
    Way::once(9_000),
    Way::again(6_000, 3_000),
    Way::again(5_000, 4_100),
];

/// A text is cut at so many places.
const CUTS: usize = 8;

/// They are so far apart, and go on from the start where the text ends.
const APART: usize = 11_003;

/// Levels whose last end tags are damaged, counted from the outermost.
const OUTER: [usize; 3] = [0, 1, 2];

/// And counted back from the number of all.
const BACK: [usize; 8] = [8_193, 8_192, 8_191, 4_097, 4_096, 4_095, 2, 1];

/// What the last end tag of a level becomes: that of two levels further out, or further in where there is none;
/// one with the last digit missing; one with a 0 more; none.
const DAMAGES: [fn(usize) -> String; 4] = [
    |level| end(label(level.checked_sub(2).unwrap_or(level + 2))),
    |level| end(&label(level)[..label(level).len() - 1]),
    |level| end(&format!("{}0", label(level))),
    |_| String::new(),
];

impl Way {
    /// Down and up.
    const fn once(down: usize) -> Way {
        Way { down, again: 0 }
    }

    /// Down, up and down again, and up.
    const fn again(down: usize, again: usize) -> Way {
        Way { down, again }
    }

    /// The text, in which a level's last end tag may have become another.
    fn text(&self, damaged: Option<(usize, String)>) -> String {
        let turn = self.down - self.again;
        let last = |level: usize| match &damaged {
            Some((wrong, tag)) if *wrong == level => tag.clone(),
            _ => end(label(level)),
        };
        let down = (0..self.down).map(start);
        let up = (turn..self.down).rev().map(|level| end(label(level)));
        let again = (turn..self.down).map(start);
        let home = (0..self.down).rev().map(last);
        down.chain(up).chain(again).chain(home).collect()
    }

    /// The levels whose last end tags are damaged.
    fn levels(&self) -> impl Iterator<Item = usize> + '_ {
        let back = BACK.iter().map(|back| self.down.saturating_sub(*back));
        OUTER.into_iter().chain([self.down / 2]).chain(back)
    }
}

/// The label of a level.
fn label(level: usize) -> &'static str {
    LABELS[level % LABELS.len()]
}

/// The start tag of a level.
fn start(level: usize) -> String {
    format!("<n{}>", label(level))
}

/// The end tag with a label.
fn end(label: &str) -> String {
    format!("</n{label}>")
}

/// For each way a line for its text, one for the text cut, and one for each damage of an end tag; gives the number of calls.
pub fn write(out: &mut dyn Write) -> io::Result<usize> {
    let mut calls = 0;
    for way in &WAYS {
        let text = way.text(None);
        let starts = (0..CUTS).map(|k| text[..APART * k % text.len()].to_string());
        calls += write_answers(out, "deep", way, [text.clone()].into_iter())?;
        calls += write_answers(out, "deep-cut", way, starts)?;
        for (number, damage) in (1..).zip(DAMAGES) {
            let name = format!("deep-end-{number}");
            let texts = way
                .levels()
                .map(|level| way.text(Some((level, damage(level)))));
            calls += write_answers(out, &name, way, texts)?;
        }
    }
    Ok(calls)
}

/// A line with the answers for some texts, none of which is a tree that may be read; gives their number.
fn write_answers(
    out: &mut dyn Write,
    name: &str,
    way: &Way,
    texts: impl Iterator<Item = String>,
) -> io::Result<usize> {
    write!(out, "{name} {} {}", way.down, way.again)?;
    let mut calls = 0;
    for text in texts {
        let refusal = read(&meaning(text.as_bytes()), 0).expect_err("there are too many nodes");
        let (number, table, place) = (refusal.number, refusal.table, refusal.place);
        write!(out, " {number}:{table}:{place}")?;
        calls += 1;
    }
    writeln!(out)?;
    Ok(calls)
}

#[cfg(test)]
mod tests {
    use super::*;

    #[test]
    fn a_way_goes_down_and_up() {
        let down = "<n1><n12><n2>";
        let text = Way::once(3).text(None);
        assert_eq!(text, format!("{down}</n2></n12></n1>"));
        let text = Way::again(3, 2).text(Some((1, String::from("!"))));
        assert_eq!(text, format!("{down}</n2></n12><n12><n2></n2>!</n1>"));
    }

    #[test]
    fn an_end_tag_is_damaged_in_four_ways() {
        let of = |level: usize| DAMAGES.map(|damage| damage(level));
        assert_eq!(of(0), ["</n2>", "</n>", "</n10>", ""]);
        assert_eq!(of(3), ["</n12>", "</n2>", "</n210>", ""]);
    }

    #[test]
    fn no_text_is_longer_than_a_place_may_be() {
        let lengths = WAYS.iter().map(|way| way.text(None).len());
        assert!(lengths.max().unwrap() < 95_000);
    }

    /// How many bytes two texts have in common before they differ.
    fn common(one: &str, other: &str) -> usize {
        let pairs = one.bytes().zip(other.bytes());
        pairs.take_while(|(a, b)| a == b).count()
    }

    #[test]
    fn a_damaged_text_is_wrong_where_it_leaves_the_right_one() {
        for way in [Way::once(1_200), Way::again(5_000, 4_100)] {
            let right = way.text(None);
            for (level, damage) in way.levels().flat_map(|l| DAMAGES.map(|d| (l, d))) {
                let text = way.text(Some((level, damage(level))));
                assert_eq!(meaning(text.as_bytes()), Err(common(&text, &right)));
            }
        }
    }
}
