//! Mending a document: its marks are made right, and those that end up different are listed.

use super::{checks, first, Counted, USED};

/// How many marks ended up different, or the number of a refusal. The list takes node, old mark and new mark of each.
pub fn mend(rows: &[u16], marks: &mut [u8], used: usize, ids: &[u32], next: u32, list: &mut [u16]) -> Counted {
    checks::shape(rows, marks, used)?;
    checks::identities(ids, used, next)?;
    let mut mended = [0u8; USED];
    let mut changes = Vec::with_capacity(used);
    for v in 0..used {
        let old = marks[v];
        let new = match (v, old) {
            (0, _) => 0,
            (_, 0) => mended[first(rows, v)],
            _ => 1,
        };
        mended[v] = new;
        if new != old {
            changes.push([v as u16, u16::from(old), u16::from(new)]);
        }
    }
    if changes.len() > list.len() / 3 {
        return Err(7);
    }
    for (words, change) in list.chunks_exact_mut(3).zip(&changes) {
        words.copy_from_slice(change);
    }
    marks[..used].copy_from_slice(&mended[..used]);
    Ok(changes.len())
}
