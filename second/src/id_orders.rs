//! Table 12, the order of the checks: every call over a document with several faults
//! at once, and all its rows after each call.

use crate::digest::Digest;
use crate::document::Document;
use crate::document_calls::{check, compact, delete, insert, read};
use crate::documents::take_rows;
use crate::refusal::Refusal;
use std::io::{self, Write};

/// What stands in the answer row before a read.
const FILLING: u8 = 7;

/// The answer row's length where it is long enough.
const ROW: usize = 5;

/// Damages of identities, each with a line of its own; 0 is none, here as for all others.
pub const IDS: usize = 6;

/// Damages of the used count and the lengths of words and marks.
pub const COUNTS: usize = 5;

/// Damages of the tree.
pub const TREES: usize = 4;

/// Damages of marks.
pub const MARKS: usize = 4;

/// A call, with the number of patterns, inserted trees and ends that it is tried with.
struct Call {
    name: &'static str,
    run: fn(&mut Given) -> Result<[usize; 3], Refusal>,
    patterns: usize,
    inserted: usize,
    ends: usize,
}

/// The calls in order.
const CALLS: [Call; 5] = [
    Call {
        name: "check",
        run: |given| check(&given.document).map(|()| [0; 3]),
        patterns: 1,
        inserted: 1,
        ends: 1,
    },
    Call {
        name: "read",
        run: run_read,
        patterns: 6,
        inserted: 1,
        ends: 2,
    },
    Call {
        name: "delete",
        run: |given| delete(&mut given.document, given.pattern).map(|removed| [removed, 0, 0]),
        patterns: 6,
        inserted: 1,
        ends: 1,
    },
    Call {
        name: "insert",
        run: run_insert,
        patterns: 6,
        inserted: 5,
        ends: 4,
    },
    Call {
        name: "compact",
        run: run_compact,
        patterns: 1,
        inserted: 1,
        ends: 1,
    },
];

/// What a call is given: a document, the other tables, and the answer row.
struct Given {
    document: Document,
    pattern: &'static [u16],
    inserted: &'static [u16],
    row: Vec<u8>,
}

/// A read, which fills the front of the answer row.
fn run_read(given: &mut Given) -> Result<[usize; 3], Refusal> {
    let found = read(&given.document, given.pattern, given.row.len())?;
    given.row[..found.len()].copy_from_slice(&found);
    Ok([0; 3])
}

/// An insert: its copies, the used count and the next identity.
fn run_insert(given: &mut Given) -> Result<[usize; 3], Refusal> {
    let copies = insert(&mut given.document, given.pattern, given.inserted)?;
    Ok([copies, given.document.used, given.document.next as usize])
}

/// A compaction: the used count and how many nodes it dropped.
fn run_compact(given: &mut Given) -> Result<[usize; 3], Refusal> {
    let dropped = compact(&mut given.document)?;
    Ok([given.document.used, dropped, 0])
}

/// Writes a line for each call and damage of identities; the number of calls.
pub fn write(out: &mut dyn Write) -> io::Result<usize> {
    let mut calls = 0;
    for call in &CALLS {
        for ids in 0..IDS {
            let (refused, digest) = tried(call, ids);
            let count = cases(call);
            let digest = digest.text();
            writeln!(out, "id-{} {ids} {count} {refused} {digest}", call.name)?;
            calls += count;
        }
    }
    Ok(calls)
}

/// How many cases a call has.
fn cases(call: &Call) -> usize {
    COUNTS * TREES * MARKS * call.patterns * call.inserted * call.ends
}

/// All cases of a call with a damage of identities: how many are refused, and the digest
/// of the answers and all rows after each.
fn tried(call: &Call, ids: usize) -> (usize, Digest) {
    let mut refused = 0;
    let mut digest = Digest::default();
    for case in 0..cases(call) {
        let mut given = given(call, ids, case);
        let answer = (call.run)(&mut given);
        refused += usize::from(answer.is_err());
        take_answer(&mut digest, answer);
        take_rows(&mut digest, &given.document);
        digest.take_all(&given.row);
    }
    (refused, digest)
}

/// Takes an answer: its first value, its second and, as an identity, its third; or the refusal.
pub fn take_answer(digest: &mut Digest, answer: Result<[usize; 3], Refusal>) {
    match answer {
        Ok([first, second, third]) => {
            digest.take(first);
            digest.take(second);
            digest.take_id(third as u32);
        }
        Err(refusal) => digest.take_refusal(refusal),
    }
}

/// What case `case` is given, the used count's damage changing fastest.
fn given(call: &Call, ids: usize, case: usize) -> Given {
    let mut rest = case;
    let mut choice = |count: usize| {
        let chosen = rest % count;
        rest /= count;
        chosen
    };
    let mut document = sound();
    let count = choice(COUNTS);
    damage_tree(&mut document.words, choice(TREES));
    damage_marks(&mut document.marks, choice(MARKS));
    damage_ids(&mut document.ids, ids);
    let pattern = PATTERNS[choice(call.patterns)];
    let inserted = INSERTED[choice(call.inserted)];
    let end = choice(call.ends);
    if call.ends == 4 {
        damage_end(&mut document, end);
    }
    damage_count(&mut document, count);
    let room = if end % 2 == 1 { 2 } else { ROW };
    Given {
        document,
        pattern,
        inserted,
        row: vec![FILLING; room],
    }
}

/// a(b(c)) with c removed, and room for two more nodes.
pub fn sound() -> Document {
    Document {
        words: vec![0, 1, 0, 2, 1, 3, 0, 0, 0, 0],
        marks: vec![0, 0, 1, 9, 9],
        used: 3,
        ids: vec![2, 4, 9, 99_999, 99_999],
        next: 11,
    }
}

/// No used node, more than there are, fewer words, fewer marks.
pub fn damage_count(document: &mut Document, damage: usize) {
    match damage {
        1 => document.used = 0,
        2 => document.used = 6,
        3 => document.words.truncate(5),
        4 => document.marks.truncate(2),
        _ => {}
    }
}

/// The root's parent, the second node's label, the third node's parent.
pub fn damage_tree(words: &mut [u16], damage: usize) {
    match damage {
        1 => words[0] = 1,
        2 => words[3] = 0,
        3 => words[4] = 2,
        _ => {}
    }
}

/// The root removed, a mark of 2, a present node below a removed one.
pub fn damage_marks(marks: &mut [u8], damage: usize) {
    match damage {
        1 => marks[0] = 1,
        2 => marks[2] = 2,
        3 => marks[1..3].copy_from_slice(&[1, 0]),
        _ => {}
    }
}

/// Too few, two alike, falling, one that is not below the next, a first one above all.
pub fn damage_ids(ids: &mut Vec<u32>, damage: usize) {
    match damage {
        1 => ids.truncate(2),
        2 => ids[1] = 2,
        3 => ids[1] = 10,
        4 => ids[2] = 11,
        5 => ids[0] = u32::MAX,
        _ => {}
    }
}

/// Patterns: right, without words, an odd number of them, one step, two wrong axes.
const PATTERNS: [&[u16]; 6] = [
    &[0, 0, 2, 0],
    &[],
    &[0, 0, 2],
    &[0, 0],
    &[1, 0, 2, 0],
    &[0, 0, 0, 0],
];

/// Inserted trees: right, without words, an odd number of them, a wrong parent, a label 0.
const INSERTED: [&[u16]; 5] = [&[0, 2, 0, 1], &[], &[0, 2, 0], &[1, 2, 0, 1], &[0, 2, 0, 0]];

/// The end of an insert: one identity left, which is one too few, from 2 on with a row of
/// three identities, or of two where there are so few.
fn damage_end(document: &mut Document, end: usize) {
    if end % 2 == 1 {
        document.next = u32::MAX - 1;
    }
    if end >= 2 {
        document.ids.truncate(3);
    }
}

#[cfg(test)]
mod tests {
    use super::*;

    /// The refusal of a case of a call.
    fn refusal(call: &Call, ids: usize, case: usize) -> Option<Refusal> {
        (call.run)(&mut given(call, ids, case)).err()
    }

    #[test]
    fn without_damage_every_call_is_answered() {
        assert!(CALLS.iter().all(|call| refusal(call, 0, 0).is_none()));
    }

    #[test]
    fn wrong_identities_refuse_every_call() {
        for call in &CALLS {
            for ids in 1..IDS {
                assert_eq!(tried(call, ids).0, cases(call), "{} {ids}", call.name);
            }
            assert!(tried(call, 0).0 < cases(call));
        }
    }

    #[test]
    fn a_refusal_changes_no_row() {
        for call in &CALLS {
            for case in 0..cases(call) {
                let mut after = given(call, 0, case);
                if (call.run)(&mut after).is_err() {
                    let before = given(call, 0, case);
                    assert_eq!(after.document, before.document);
                    assert_eq!(after.row, before.row);
                }
            }
        }
    }

    #[test]
    fn an_insert_lacks_identities_before_it_lacks_room() {
        let insert = &CALLS[3];
        let end = cases(insert) / 4;
        let number = |case: usize| refusal(insert, 0, case).map(|refusal| refusal.number);
        assert_eq!(
            [0, 1, 2, 3].map(|k| number(k * end)),
            [None, Some(16), Some(11), Some(16)]
        );
    }
}
