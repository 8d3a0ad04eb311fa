//! Reading a document: one pass over the nodes for each 64 steps, the set of these steps at each node in a number of 64 bits.

use super::{checks, first, label, stays, Counted, USED};

/// Values of a byte.
const BYTES: usize = 256;

/// Steps in a number.
const WORD: usize = 64;

/// Of the steps from one on: those that stay, and in a slot for each value of a label's low and high byte those that agree.
struct Masks {
    staying: u64,
    low: [u64; BYTES],
    high: [u64; BYTES],
}

impl Masks {
    fn of(pattern: &[u16], from: usize) -> Masks {
        let steps = from..(pattern.len() / 2).min(from + WORD);
        let (mut staying, mut any) = (0, 0);
        for i in steps.clone() {
            staying |= u64::from(stays(pattern, i)) << (i - from);
            any |= u64::from(label(pattern, i) == 0) << (i - from);
        }
        let (mut low, mut high) = ([any; BYTES], [any; BYTES]);
        for i in steps {
            let name = usize::from(label(pattern, i));
            if name != 0 {
                low[name % BYTES] |= 1 << (i - from);
                high[name / BYTES] |= 1 << (i - from);
            }
        }
        Masks { staying, low, high }
    }

    /// The steps that agree with a label.
    fn agreeing(&self, label: u16) -> u64 {
        let label = usize::from(label);
        self.low[label % BYTES] & self.high[label / BYTES]
    }
}

/// Calls `at` with each node and each word of the set of steps that stand there, the words one after another.
pub fn stand(pattern: &[u16], rows: &[u16], used: usize, mut at: impl FnMut(usize, usize, u64)) {
    let steps = pattern.len() / 2;
    let (mut sets, mut carry) = ([0u64; USED], [0u8; USED]);
    for from in (0..steps).step_by(WORD) {
        let masks = Masks::of(pattern, from);
        for v in 0..used {
            let agreeing = masks.agreeing(label(rows, v));
            let set = if v == 0 {
                agreeing & u64::from(from == 0)
            } else {
                let parent = first(rows, v);
                let above = sets[parent];
                let first = if from == 0 { 0 } else { u64::from(carry[parent]) };
                (agreeing & (above << 1 | first)) | (masks.staying & above)
            };
            sets[v] = set;
            at(from, v, set);
        }
        if from + WORD < steps {
            for v in 0..used {
                carry[v] = (sets[v] >> (WORD - 1)) as u8;
            }
        }
    }
}

/// The word of a set of steps that begins with one of them.
pub fn word(wanted: &[bool], from: usize) -> u64 {
    let steps = wanted.iter().skip(from).take(WORD).enumerate();
    steps.fold(0, |word, (i, &yes)| word | u64::from(yes) << i)
}

/// Sets the byte of each node that the pattern selects to 1 and of each other to 0.
pub fn select(pattern: &[u16], rows: &[u16], marks: &[u8], used: usize, row: &mut [u8]) {
    let last = pattern.len() / 2 - 1;
    row[..used].fill(0);
    stand(pattern, rows, used, |from, v, set| {
        if from == last / WORD * WORD {
            row[v] = u8::from(marks[v] == 0 && (set >> (last - from)) & 1 == 1);
        }
    });
}

/// A byte a node in use: 1 where the pattern selects it.
pub fn read(pattern: &[u16], rows: &[u16], marks: &[u8], used: usize, ids: &[u32], row: &mut [u8]) -> Counted {
    checks::document(rows, marks, used)?;
    checks::identities(ids, used, ids.len() as u32)?;
    checks::pattern(pattern)?;
    if row.len() < used {
        return Err(7);
    }
    select(pattern, rows, marks, used, row);
    Ok(0)
}
