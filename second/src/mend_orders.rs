//! Table 14, the order of the checks: mendings of a document with several faults at once.

use crate::document::Document;
use crate::id_orders::{self, damage_count, damage_ids, damage_tree, sound, COUNTS, IDS, TREES};
use crate::mends::Tally;
use std::io::{self, Write};

/// Damages of marks: those of table 12, and one more.
const MARKS: usize = id_orders::MARKS + 1;

/// The lengths of the list.
const ROOMS: [usize; 4] = [15, 0, 3, 8];

/// How many cases a line has.
const CASES: usize = COUNTS * TREES * MARKS * ROOMS.len();

/// Writes a line for each damage of identities; the number of mendings.
pub fn write(out: &mut dyn Write) -> io::Result<usize> {
    let mut calls = 0;
    for ids in 0..IDS {
        let tally = tried(ids);
        let (count, digest) = (tally.calls, tally.digest.text());
        let refused = count - tally.fits;
        writeln!(out, "mend-order {ids} {count} {refused} {digest}")?;
        calls += count;
    }
    Ok(calls)
}

/// All cases with a damage of identities.
fn tried(ids: usize) -> Tally {
    let mut tally = Tally::default();
    for case in 0..CASES {
        let (mut document, room) = given(ids, case);
        tally.mend_whole(&mut document, room);
    }
    tally
}

/// The document and the length of the list in case `case`, the used count's damage changing
/// fastest, then that of the tree, that of marks, and the list.
fn given(ids: usize, case: usize) -> (Document, usize) {
    let mut rest = case;
    let mut choice = |count: usize| {
        let chosen = rest % count;
        rest /= count;
        chosen
    };
    let mut document = sound();
    let count = choice(COUNTS);
    damage_tree(&mut document.words, choice(TREES));
    damage_marks(&mut document.marks, choice(MARKS));
    let room = ROOMS[choice(ROOMS.len())];
    damage_ids(&mut document.ids, ids);
    damage_count(&mut document, count);
    (document, room)
}

/// As in table 12, or 255 for every used node.
fn damage_marks(marks: &mut [u8], damage: usize) {
    match damage {
        id_orders::MARKS => marks[..3].fill(255),
        _ => id_orders::damage_marks(marks, damage),
    }
}

#[cfg(test)]
mod tests {
    use super::*;
    use crate::document_calls::mend;
    use crate::mends::FILLING;

    /// What a case without damaged identities answers: the changes, or the refusal.
    fn answer(case: usize) -> Result<usize, String> {
        let (mut document, room) = given(0, case);
        mend(&mut document, &mut vec![FILLING; room]).map_err(|refusal| refusal.to_string())
    }

    #[test]
    fn wrong_identities_refuse_every_mending() {
        assert!((1..IDS).all(|ids| tried(ids).fits == 0));
    }

    #[test]
    fn wrong_marks_alone_never_do() {
        let first = |marks: usize| COUNTS * TREES * marks;
        let changes = [0, 1, 1, 1, 3];
        for (list, room) in ROOMS.into_iter().enumerate() {
            for (marks, changes) in changes.into_iter().enumerate() {
                let expected = match 3 * changes <= room {
                    true => Ok(changes),
                    false => Err(String::from("7 4 0")),
                };
                assert_eq!(answer(first(marks + MARKS * list)), expected);
            }
        }
    }

    #[test]
    fn the_used_count_comes_before_the_tree_and_the_tree_before_the_room() {
        let no_room = COUNTS * TREES * (4 + MARKS);
        let answers = [0, 5, 6, 10, 15].map(|case| answer(no_room + case).unwrap_err());
        assert_eq!(answers, ["7 4 0", "4 5 0", "12 5 0", "5 5 1", "4 5 2"]);
    }

    #[test]
    fn a_refusal_changes_no_row() {
        for (ids, case) in (0..IDS).flat_map(|ids| (0..CASES).map(move |case| (ids, case))) {
            let (mut document, room) = given(ids, case);
            let mut list = vec![FILLING; room];
            if mend(&mut document, &mut list).is_err() {
                assert_eq!(document, given(ids, case).0);
                assert_eq!(list, vec![FILLING; room]);
            }
        }
    }
}
