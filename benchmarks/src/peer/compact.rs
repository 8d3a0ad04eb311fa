//! Compacting a document: removed nodes are dropped in place, and the rest is closed up.

use super::{checks, first, USED};

/// The new used count and how many nodes were dropped, or the number of a refusal.
pub fn compact(
    rows: &mut [u16],
    marks: &mut [u8],
    used: usize,
    ids: &mut [u32],
    next: u32,
) -> Result<(usize, usize), usize> {
    checks::document(rows, marks, used)?;
    checks::identities(ids, used, next)?;
    let mut places = [0u16; USED];
    let mut end = 0;
    for v in 0..used {
        places[v] = end as u16;
        if marks[v] == 0 {
            rows[2 * end] = places[first(rows, v)];
            rows[2 * end + 1] = rows[2 * v + 1];
            marks[end] = 0;
            ids[end] = ids[v];
            end += 1;
        }
    }
    Ok((end, used - end))
}
