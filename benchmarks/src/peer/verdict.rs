//! The verdicts, with a smallest witness.

use super::entering::entering;
use super::meeting::Pair;
use super::{checks, Counted};

/// 7 where the output has no room for the longest witness.
fn room(read: &[u16], update: &[u16], out: &[u16]) -> Result<(), usize> {
    if out.len() < 2 * (read.len() / 2 + update.len() / 2 - 1) {
        return Err(7);
    }
    Ok(())
}

/// A move for each pair of states.
fn moves(pair: &Pair) -> Vec<u8> {
    vec![0; pair.read.len() / 2 * (pair.update.len() / 2)]
}

/// A read and a delete, without the checks.
pub fn delete_way(read: &[u16], update: &[u16], out: &mut [u16]) -> usize {
    let pair = Pair {
        read,
        read_below: false,
        update,
        update_below: true,
    };
    let mut moves = moves(&pair);
    let mut last = (0, 0);
    pair.rows(&mut moves, |i, way| last = (way, i));
    pair.trace(&moves, last.0, last.1, out);
    usize::from(last.0)
}

/// A read and an insert, without the checks.
pub fn insert_way(read: &[u16], update: &[u16], tree: &[u16], out: &mut [u16]) -> usize {
    let pair = Pair {
        read,
        read_below: false,
        update,
        update_below: false,
    };
    let enters = entering(read, tree);
    let mut moves = moves(&pair);
    let mut best = (0, 0);
    pair.rows(&mut moves, |i, way| {
        if way != 0 && (best.0 == 0 || way < best.0) && enters[i] {
            best = (way, i);
        }
    });
    pair.trace(&moves, best.0, best.1, out);
    usize::from(best.0)
}

/// Whether some way is hit by both: a deep conflict of a read and a delete.
pub fn delete_deep(read: &[u16], update: &[u16]) -> bool {
    let pair = Pair {
        read,
        read_below: true,
        update,
        update_below: true,
    };
    let mut last = 0;
    pair.rows(&mut [], |_, way| last = way);
    last != 0
}

/// A deep conflict of a read and an insert: at an update point the read has been, or enters the tree.
pub fn insert_deep(read: &[u16], update: &[u16], tree: &[u16]) -> bool {
    let pair = Pair {
        read,
        read_below: true,
        update,
        update_below: false,
    };
    let mut enters = entering(read, tree);
    enters[read.len() / 2 - 1] = true;
    let mut found = false;
    pair.rows(&mut [], |i, way| found |= way != 0 && enters[i]);
    found
}

/// A read and a delete.
pub fn delete_verdict(read: &[u16], update: &[u16], out: &mut [u16]) -> Counted {
    checks::pattern(read)?;
    checks::pattern(update)?;
    if update.len() / 2 == 1 {
        return Err(6);
    }
    room(read, update, out)?;
    Ok(delete_way(read, update, out))
}

/// A read and an insert.
pub fn insert_verdict(read: &[u16], update: &[u16], tree: &[u16], out: &mut [u16]) -> Counted {
    checks::pattern(read)?;
    checks::pattern(update)?;
    checks::tree(tree)?;
    room(read, update, out)?;
    Ok(insert_way(read, update, tree, out))
}
