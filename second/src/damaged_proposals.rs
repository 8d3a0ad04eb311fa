//! Table 10, refusals: damaged tables, one at a time and all at once.

use crate::evidence;
use crate::proposals::{Answer, Tally};
use crate::refusal::{DOCUMENT, INSERTED, READ, UPDATE};
use crate::table_damages::{patterns, trees};
use std::io::{self, Write};

/// The labels of the two steps of the read that is damaged.
const DAMAGED_READ: (u16, u16) = (1, 0);

/// Those of the update.
const DAMAGED_UPDATE: (u16, u16) = (0, 2);

/// The damaged tables, each argument with each of its damages.
struct Damaged {
    reads: Vec<Vec<u16>>,
    updates: Vec<Vec<u16>>,
    inserted: Vec<Vec<u16>>,
    trees: Vec<Vec<u16>>,
}

impl Damaged {
    /// All of them; the first of each has no damage.
    fn all() -> Damaged {
        Damaged {
            reads: patterns(DAMAGED_READ.0, DAMAGED_READ.1),
            updates: patterns(DAMAGED_UPDATE.0, DAMAGED_UPDATE.1),
            inserted: trees(),
            trees: trees(),
        }
    }

    /// The answer for a delete by the numbers of the damages.
    fn delete(&self, r: usize, p: usize, t: usize) -> Answer {
        evidence::delete(&self.reads[r], &self.updates[p], &self.trees[t])
    }

    /// The answer for an insert by the numbers of the damages.
    fn insert(&self, r: usize, p: usize, x: usize, t: usize) -> Answer {
        let (read, points) = (&self.reads[r], &self.updates[p]);
        evidence::insert(read, points, &self.inserted[x], &self.trees[t])
    }

    /// Every delete with a damage of the read; that of the tree changes fastest.
    fn deletes(&self, r: usize) -> Tally {
        let mut tally = Tally::default();
        for p in 0..self.updates.len() {
            for t in 0..self.trees.len() {
                tally.take(self.delete(r, p, t));
            }
        }
        tally
    }

    /// Every insert with a damage of the read; that of the tree changes fastest.
    fn inserts(&self, r: usize) -> Tally {
        let mut tally = Tally::default();
        for p in 0..self.updates.len() {
            for x in 0..self.inserted.len() {
                for t in 0..self.trees.len() {
                    tally.take(self.insert(r, p, x, t));
                }
            }
        }
        tally
    }
}

/// Lines of damaged tables: one damage alone, then all damages of all tables at once;
/// gives the number of calls.
pub fn write(out: &mut dyn Write) -> io::Result<usize> {
    let damaged = Damaged::all();
    let (patterns, trees) = (0..damaged.reads.len(), 0..damaged.trees.len());
    let mut calls = 0;
    for (table, damages) in [(READ, &patterns), (UPDATE, &patterns), (DOCUMENT, &trees)] {
        for d in damages.clone() {
            let [r, p, t] = [READ, UPDATE, DOCUMENT].map(|one| if one == table { d } else { 0 });
            calls += write_alone(out, "delete", table, d, damaged.delete(r, p, t))?;
        }
    }
    let tables = [
        (READ, &patterns),
        (UPDATE, &patterns),
        (INSERTED, &trees),
        (DOCUMENT, &trees),
    ];
    for (table, damages) in tables {
        for d in damages.clone() {
            let all = [READ, UPDATE, INSERTED, DOCUMENT];
            let [r, p, x, t] = all.map(|one| if one == table { d } else { 0 });
            calls += write_alone(out, "insert", table, d, damaged.insert(r, p, x, t))?;
        }
    }
    for r in patterns.clone() {
        calls += write_all(out, "damaged-delete", r, &damaged.deletes(r))?;
    }
    for r in patterns {
        calls += write_all(out, "damaged-insert", r, &damaged.inserts(r))?;
    }
    Ok(calls)
}

/// Writes the line of one damage alone; gives 1, the call.
fn write_alone(
    out: &mut dyn Write,
    name: &str,
    table: usize,
    damage: usize,
    answer: Answer,
) -> io::Result<usize> {
    let answer = match answer {
        Ok(node) => format!("ok {node}"),
        Err(refusal) => refusal.to_string(),
    };
    writeln!(out, "{name} {table} {damage} {answer}")?;
    Ok(1)
}

/// Writes the line of one damage of the read with all others; gives the number of calls.
fn write_all(out: &mut dyn Write, name: &str, read: usize, tally: &Tally) -> io::Result<usize> {
    let (calls, refused, digest) = (tally.calls, tally.refused, tally.digest.text());
    writeln!(out, "{name} {read} {calls} {refused} {digest}")?;
    Ok(calls)
}

#[cfg(test)]
mod tests {
    use super::*;

    /// The first refusal of some answers, but for that of a delete of one step.
    fn first(answers: &[Answer]) -> Option<Answer> {
        let early = |answer: &&Answer| answer.is_err_and(|refusal| refusal.number != 6);
        answers.iter().find(early).copied()
    }

    #[test]
    fn of_several_damages_the_first_table_is_told() {
        let all = Damaged::all();
        for (r, p, x, t) in
            (0..12 * 12 * 13 * 13).map(|c: usize| (c / 2028, c / 169 % 12, c / 13 % 13, c % 13))
        {
            let alone = [(r, 0, 0, 0), (0, p, 0, 0), (0, 0, x, 0), (0, 0, 0, t)]
                .map(|(r, p, x, t)| all.insert(r, p, x, t));
            match first(&alone) {
                Some(refusal) => assert_eq!(all.insert(r, p, x, t), refusal),
                None => assert!(all.insert(r, p, x, t).is_ok()),
            }
        }
    }

    #[test]
    fn a_delete_of_one_step_is_told_last() {
        let all = Damaged::all();
        for (r, p, t) in (0..12 * 12 * 13).map(|c: usize| (c / 156, c / 13 % 12, c % 13)) {
            let alone = [(r, 0, 0), (0, p, 0), (0, 0, t)].map(|(r, p, t)| all.delete(r, p, t));
            let expected = first(&alone).or(alone[1].is_err().then_some(alone[1]));
            match expected {
                Some(refusal) => assert_eq!(all.delete(r, p, t), refusal),
                None => assert!(all.delete(r, p, t).is_ok()),
            }
        }
    }

    #[test]
    fn a_damage_alone_is_told_by_its_table_and_place() {
        let mut out = Vec::new();
        write(&mut out).unwrap();
        let text = String::from_utf8(out).unwrap();
        let lines: Vec<&str> = text.lines().take(87).collect();
        for line in [
            "delete 1 0 ok 1",
            "delete 2 3 6 2 0",
            "delete 5 8 4 5 2",
            "insert 1 5 2 1 0",
            "insert 2 9 3 2 1",
            "insert 3 10 4 3 2",
            "insert 5 0 ok 3",
            "insert 5 3 ok 1024",
            "insert 5 11 5 5 0",
        ] {
            assert!(lines.contains(&line), "{line}");
        }
    }
}
