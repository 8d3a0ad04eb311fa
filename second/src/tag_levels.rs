//! What a text of tags means, by levels. The text is cut behind each `>`, and the level of a tag is how many
//! elements are open around its own. At each level start tags and end tags take turns.

use crate::read_trees::Meaning;
use crate::tree::Row;

/// What a tag does.
#[derive(Clone, Copy, PartialEq, Eq)]
enum Kind {
    Start,
    End,
    Short,
}

/// A tag.
#[derive(Clone, Copy, PartialEq, Eq)]
struct Tag {
    kind: Kind,
    label: u16,
}

/// A tag with its level and its place among all tags.
struct Placed {
    level: usize,
    place: usize,
    tag: Tag,
}

/// What may be missing of a tag that is cut: all of a short tag, the end of one, or nothing.
const MISSING: [&[u8]; 6] = [b"", b"<n1/>", b"n1/>", b"1/>", b"/>", b">"];

/// What a text means.
pub fn meaning(text: &[u8]) -> Meaning {
    let tags: Option<Vec<Tag>> = parts_of(text).map(tag_of).collect();
    let placed = tags.and_then(|tags| by_level(&tags));
    match placed.filter(|placed| is_right(placed)) {
        Some(placed) => Ok(rows_of(&placed)),
        None => Err(longest_start(text)),
    }
}

/// The parts of a text, each but the last with `>` at its end and nowhere else.
fn parts_of(text: &[u8]) -> impl Iterator<Item = &[u8]> {
    text.split_inclusive(|&byte| byte == b'>')
}

/// The tag that a text is: its label is written as Rust writes it.
fn tag_of(text: &[u8]) -> Option<Tag> {
    let text = std::str::from_utf8(text).ok()?;
    let inside = text.strip_prefix('<')?.strip_suffix('>')?;
    let (kind, name) = match (inside.strip_prefix('/'), inside.strip_suffix('/')) {
        (Some(name), _) => (Kind::End, name),
        (None, Some(name)) => (Kind::Short, name),
        (None, None) => (Kind::Start, inside),
    };
    let digits = name.strip_prefix('n')?;
    let label: u16 = digits.parse().ok()?;
    let right = label > 0 && label.to_string() == digits;
    right.then_some(Tag { kind, label })
}

/// The tags sorted by level, those of one level in order of place, if there is never an end tag too many.
fn by_level(tags: &[Tag]) -> Option<Vec<Placed>> {
    let mut placed = Vec::new();
    let mut level = 0usize;
    for (place, &tag) in tags.iter().enumerate() {
        level = level.checked_sub(usize::from(tag.kind == Kind::End))?;
        placed.push(Placed { level, place, tag });
        level += usize::from(tag.kind == Kind::Start);
    }
    placed.sort_by_key(|one| one.level);
    Some(placed)
}

/// The levels, the outermost first.
fn levels(placed: &[Placed]) -> impl DoubleEndedIterator<Item = &[Placed]> {
    placed.chunk_by(|one, other| one.level == other.level)
}

/// The start tags and short tags of a level.
fn elements(level: &[Placed]) -> impl Iterator<Item = &Placed> {
    level.iter().filter(|one| one.tag.kind != Kind::End)
}

/// True when there is one element at the first level, and at each level every start tag has its end tag behind it.
fn is_right(placed: &[Placed]) -> bool {
    let roots = levels(placed)
        .next()
        .map_or(0, |level| elements(level).count());
    roots == 1 && levels(placed).all(is_closed)
}

/// True when start tags and end tags take turns, each end tag with the label of the start tag before it.
fn is_closed(level: &[Placed]) -> bool {
    let mut long = level
        .iter()
        .map(|one| one.tag)
        .filter(|tag| tag.kind != Kind::Short);
    while let Some(start) = long.next() {
        let end = Tag {
            kind: Kind::End,
            ..start
        };
        if start.kind != Kind::Start || long.next() != Some(end) {
            return false;
        }
    }
    true
}

/// The rows of a right text's tree. An element's parent is the last that starts before it at the level around it.
fn rows_of(placed: &[Placed]) -> Vec<Row> {
    let mut found = Vec::new();
    let mut around: Vec<usize> = Vec::new();
    for level in levels(placed) {
        for one in elements(level) {
            let before = around.partition_point(|&place| place < one.place);
            let parent = around[..before].last().copied().unwrap_or(one.place);
            found.push((one.place, parent, one.tag.label));
        }
        around = elements(level).map(|one| one.place).collect();
    }
    found.sort();
    let number = |place: usize| found.partition_point(|&(other, _, _)| other < place);
    let row = |&(_, parent, label): &(usize, usize, u16)| Row {
        parent: number(parent),
        label,
    };
    found.iter().map(row).collect()
}

/// The length of the longest start that some right text has: as many whole tags as may be, and of the next part as
/// many bytes as may be.
fn longest_start(text: &[u8]) -> usize {
    let parts: Vec<&[u8]> = parts_of(text).collect();
    let tags: Vec<Tag> = parts.iter().map_while(|part| tag_of(part)).collect();
    let whole = most(tags.len(), |count| closes(tags[..count].to_vec()));
    let next = parts.get(whole).copied().unwrap_or_default();
    let cut = most(next.len(), |length| {
        some_begins(&tags[..whole], &next[..length])
    });
    parts[..whole].concat().len() + cut
}

/// The greatest number, to a limit, for which something holds that holds for 0, and below each number for which it holds.
fn most(limit: usize, holds: impl Fn(usize) -> bool) -> usize {
    let numbers: Vec<usize> = (1..=limit).collect();
    numbers.partition_point(|&number| holds(number))
}

/// True when some right text begins with these tags and then a tag that is cut: it is finished in each way, and
/// then all open elements are closed.
fn some_begins(tags: &[Tag], cut: &[u8]) -> bool {
    finished(cut, tags).iter().any(|last| {
        let last: Option<Vec<Tag>> = parts_of(last).map(tag_of).collect();
        last.is_some_and(|last| closes([tags, &last].concat()))
    })
}

/// A tag that is cut, finished as a short tag and as the end tag of the innermost open element.
fn finished(cut: &[u8], before: &[Tag]) -> Vec<Vec<u8>> {
    let shorts = MISSING.map(|more| [cut, more].concat());
    let innermost = open_in(before).first().copied();
    let end = innermost.map(|label| format!("</n{label}>").into_bytes());
    let end = end.filter(|end| end.starts_with(cut));
    shorts.into_iter().chain(end).collect()
}

/// True when tags are right with end tags for all open elements behind them.
fn closes(mut tags: Vec<Tag>) -> bool {
    let kind = Kind::End;
    let ends = open_in(&tags).into_iter().map(|label| Tag { kind, label });
    tags.extend(ends);
    by_level(&tags).is_some_and(|placed| is_right(&placed))
}

/// The labels of the open elements, the innermost first.
fn open_in(tags: &[Tag]) -> Vec<u16> {
    let placed = by_level(tags).unwrap_or_default();
    let lasts = levels(&placed).rev().filter_map(|level| level.last());
    let open = lasts.filter(|one| one.tag.kind == Kind::Start);
    open.map(|one| one.tag.label).collect()
}

#[cfg(test)]
mod tests {
    use super::*;
    use crate::right_tags::RightTags;
    use crate::rows::{rows, rows_to};
    use crate::tag_trees::{large, SHAPES};
    use crate::tags::text_of;
    use crate::tree::{rows_of, words_of};

    #[test]
    fn all_short_texts_are_as_among_the_made_ones() {
        let right = RightTags::over(b"016", 7);
        for text in rows_to(b"</>n01", 7).chain(rows(b"<>n06", 7)) {
            assert_eq!(meaning(&text), right.meaning(&text), "{text:?}");
        }
    }

    #[test]
    fn all_short_texts_of_tags_are_as_among_the_made_ones() {
        let right = RightTags::over(b"1", 20);
        let parts: [&[u8]; 6] = [b"<n1>", b"</n1>", b"<n1/>", b"<n11>", b"</n11>", b"</n1"];
        let texts = rows_to(&parts, 5).map(|row| row.concat());
        for text in texts.filter(|text| text.len() <= 20) {
            assert_eq!(meaning(&text), right.meaning(&text), "{text:?}");
        }
    }

    #[test]
    fn a_written_tree_in_the_order_of_its_tags_is_read_back() {
        for shape in [0, 1, 2] {
            let rows = rows_of(&large(shape, 256));
            assert_eq!(meaning(text_of(&rows).as_bytes()), Ok(rows));
        }
    }

    #[test]
    fn a_read_tree_is_written_as_its_text() {
        for shape in 0..SHAPES.len() {
            let text = text_of(&rows_of(&large(shape, 256)));
            let rows = meaning(text.as_bytes()).unwrap();
            assert_eq!(text_of(&rows), text);
            let words = words_of(&rows);
            assert!(words
                .chunks(2)
                .skip(1)
                .enumerate()
                .all(|(v, row)| usize::from(row[0]) <= v));
        }
    }

    #[test]
    fn labels_have_their_limits() {
        let place = |text: &str| meaning(text.as_bytes()).unwrap_err();
        assert!(meaning(b"<n65535/>").is_ok());
        assert_eq!(place("<n65536/>"), 6);
        assert_eq!(place("<n100000/>"), 7);
        assert_eq!(place("<n0/>"), 2);
        assert_eq!(place("<n+1/>"), 2);
        assert_eq!(place("<n1></n>"), 7);
    }
}
