//! Calls over a document as it is given: first the checks, one after another in the
//! order of documents 01 and 02, then what is asked for.

use crate::buffers::fitting;
use crate::checks;
use crate::document::Document;
use crate::limits::{DOCUMENT_NODES, INSERTED_NODES};
use crate::mending::changes;
use crate::refusal::{number, refused, Refusal, DOCUMENT, INSERTED, READ, ROOM, UPDATE};
use crate::tree::{rows_of, Row};

/// The first refusal of a document.
pub fn check(document: &Document) -> Result<(), Refusal> {
    let rows = checked_rows(document)?;
    right(marks_are_right(&rows, &document.marks))?;
    right(ids_are_right(document))
}

/// The first refusal of a document whose marks may be anything.
fn check_but_marks(document: &Document) -> Result<(), Refusal> {
    checked_rows(document)?;
    right(ids_are_right(document))
}

/// The rows of the used nodes, or the first refusal of their number and of these.
fn checked_rows(document: &Document) -> Result<Vec<Row>, Refusal> {
    right(count_is_right(document))?;
    let rows = rows_of(&document.words[..2 * document.used]);
    checks::check_nodes(&rows, DOCUMENT)?;
    Ok(rows)
}

/// What has to be so in a document, else it is refused as a whole.
fn right(so: bool) -> Result<(), Refusal> {
    match so {
        true => Ok(()),
        false => Err(refused(number::WRONG_DOCUMENT, DOCUMENT, 0)),
    }
}

/// There is a used node, and there are words and a mark for each.
fn count_is_right(document: &Document) -> bool {
    let most = DOCUMENT_NODES
        .min(document.words.len() / 2)
        .min(document.marks.len());
    (1..=most).contains(&document.used)
}

/// The root is present, and every other node is present below a present one, or removed.
fn marks_are_right(rows: &[Row], marks: &[u8]) -> bool {
    let pair = |(v, row): (usize, &Row)| (marks[row.parent], marks[v]);
    let fits = |pair: (u8, u8)| matches!(pair, (0, 0) | (0, 1) | (1, 1));
    marks[0] == 0 && rows.iter().enumerate().skip(1).map(pair).all(fits)
}

/// Each used node has an identity, below the next and below that of every later node.
fn ids_are_right(document: &Document) -> bool {
    let Some(ids) = document.ids.get(..document.used) else {
        return false;
    };
    let below_later = |v: usize| ids[v + 1..].iter().all(|&later| ids[v] < later);
    (0..ids.len()).all(|v| ids[v] < document.next && below_later(v))
}

/// A read into so much room: a byte for each used node.
pub fn read(document: &Document, pattern: &[u16], room: usize) -> Result<Vec<u8>, Refusal> {
    check(document)?;
    let pattern = checks::pattern(pattern, READ)?;
    if room < document.used {
        return Err(refused(number::TOO_SHORT, ROOM, 0));
    }
    Ok(document.read(&pattern))
}

/// A delete: how many nodes it newly removed.
pub fn delete(document: &mut Document, pattern: &[u16]) -> Result<usize, Refusal> {
    check(document)?;
    document.delete(&checks::pattern(pattern, UPDATE)?)
}

/// An insert: its copies.
pub fn insert(
    document: &mut Document,
    pattern: &[u16],
    inserted: &[u16],
) -> Result<usize, Refusal> {
    check(document)?;
    let pattern = checks::pattern(pattern, UPDATE)?;
    let inserted = checks::tree(inserted, INSERTED_NODES, INSERTED)?;
    document.insert(&pattern, &inserted)
}

/// A compaction: how many nodes it dropped.
pub fn compact(document: &mut Document) -> Result<usize, Refusal> {
    check(document)?;
    Ok(document.compact())
}

/// A mending, which fills the front of the list: how many marks it changed.
pub fn mend(document: &mut Document, list: &mut [u16]) -> Result<usize, Refusal> {
    check_but_marks(document)?;
    let marks = document.mended_marks();
    let changes = changes(&document.marks, &marks);
    let words = fitting(changes.concat(), list.len())?;
    list[..words.len()].copy_from_slice(&words);
    document.marks[..marks.len()].copy_from_slice(&marks);
    Ok(changes.len())
}

#[cfg(test)]
mod tests {
    use super::*;
    use crate::documents::{documents_of, MOST_NODES};

    /// a(b, c) with room for one more node.
    fn abc() -> Document {
        Document {
            words: vec![0, 1, 0, 2, 0, 3, 0, 0],
            marks: vec![0, 1, 0, 9],
            used: 3,
            ids: vec![2, 4, 5, 0],
            next: 6,
        }
    }

    /// The refusal of a document after a change.
    fn after(change: impl Fn(&mut Document)) -> Option<Refusal> {
        let mut document = abc();
        change(&mut document);
        check(&document).err()
    }

    #[test]
    fn the_used_count_comes_first() {
        let wrong = Some(refused(12, 5, 0));
        assert_eq!(after(|_| ()), None);
        for used in [0, 5, 4_097] {
            assert_eq!(after(|d| d.used = used), wrong);
        }
        assert_eq!(after(|d| d.marks.truncate(2)), wrong);
        assert_eq!(after(|d| d.words.truncate(5)), wrong);
    }

    #[test]
    fn identities_come_last() {
        let wrong = Some(refused(12, 5, 0));
        assert_eq!(after(|d| d.ids.truncate(2)), wrong);
        assert_eq!(after(|d| d.ids.truncate(3)), None);
        assert_eq!(after(|d| d.ids[1] = 2), wrong);
        assert_eq!(after(|d| d.ids[0] = 5), wrong);
        assert_eq!(after(|d| d.next = 5), wrong);
        let both = |d: &mut Document| {
            d.next = 0;
            d.words[4] = 2;
        };
        assert_eq!(after(both), Some(refused(4, 5, 2)));
    }

    #[test]
    fn a_mark_is_0_or_1_and_nothing_is_present_below_a_removed_node() {
        let wrong = Some(refused(12, 5, 0));
        assert_eq!(after(|d| d.marks[0] = 1), wrong);
        assert_eq!(after(|d| d.marks[2] = 2), wrong);
        assert_eq!(after(|d| d.words[4] = 1), wrong);
    }

    #[test]
    fn the_document_comes_before_the_pattern_and_the_pattern_before_the_tree() {
        let mut document = abc();
        assert_eq!(insert(&mut document, &[], &[]), Err(refused(1, 2, 0)));
        assert_eq!(insert(&mut document, &[0, 1], &[]), Err(refused(1, 3, 0)));
        document.next = 0;
        assert_eq!(insert(&mut document, &[], &[]), Err(refused(12, 5, 0)));
        assert_eq!(read(&document, &[], 0), Err(refused(12, 5, 0)));
        assert_eq!(read(&abc(), &[0, 1], 2), Err(refused(7, 4, 0)));
    }

    #[test]
    fn a_mending_looks_at_all_but_the_marks_and_then_at_the_room() {
        let mended = |change: fn(&mut Document), room: usize| {
            let mut document = abc();
            document.marks = vec![1, 255, 0, 9];
            change(&mut document);
            mend(&mut document, &mut vec![777; room])
        };
        assert_eq!(mended(|_| (), 6), Ok(2));
        assert_eq!(mended(|_| (), 5), Err(refused(7, 4, 0)));
        assert_eq!(mended(|d| d.next = 5, 0), Err(refused(12, 5, 0)));
        assert_eq!(mended(|d| d.words[3] = 0, 0), Err(refused(5, 5, 1)));
        assert_eq!(mended(|d| d.words[2] = 1, 0), Err(refused(4, 5, 1)));
        assert_eq!(mended(|d| d.used = 0, 0), Err(refused(12, 5, 0)));
    }

    #[test]
    fn the_small_documents_are_right() {
        for document in (1..=MOST_NODES).flat_map(documents_of) {
            assert_eq!(check(&document), Ok(()));
        }
    }
}
