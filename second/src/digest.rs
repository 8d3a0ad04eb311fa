//! The digest that stands for a row of numbers.

use crate::refusal::Refusal;

/// The prime below 2 to the power of 32 by which the digest is reduced.
const MODULUS: u64 = 4_294_967_291;

/// What the digest is multiplied by before it takes a number.
const FACTOR: u64 = 65_599;

/// A refusal's number goes into a digest with this added.
const REFUSAL_BASE: usize = 100;

/// A digest of the numbers taken so far; 0 at first.
#[derive(Clone, Copy, Debug, Default, PartialEq, Eq)]
pub struct Digest {
    value: u64,
}

impl Digest {
    /// Takes one number.
    pub fn take(&mut self, number: usize) {
        self.value = (self.value * FACTOR + number as u64 + 1) % MODULUS;
    }

    /// Takes each number of a row.
    pub fn take_all<T: Into<usize> + Copy>(&mut self, row: &[T]) {
        for &number in row {
            self.take(number.into());
        }
    }

    /// Takes an identity, its upper half and then its lower.
    pub fn take_id(&mut self, id: u32) {
        self.take((id >> 16) as usize);
        self.take((id & 0xFFFF) as usize);
    }

    /// Takes each identity of a row.
    pub fn take_ids(&mut self, row: &[u32]) {
        for &id in row {
            self.take_id(id);
        }
    }

    /// Takes a refusal's three numbers.
    pub fn take_refusal(&mut self, refusal: Refusal) {
        self.take(REFUSAL_BASE + refusal.number);
        self.take(refusal.table);
        self.take(refusal.place);
    }

    /// Eight upper-case hexadecimal digits.
    pub fn text(&self) -> String {
        format!("{:08X}", self.value)
    }
}

#[cfg(test)]
mod tests {
    use super::*;

    #[test]
    fn the_order_and_the_zeros_count() {
        let of = |row: &[u16]| {
            let mut digest = Digest::default();
            digest.take_all(row);
            digest.text()
        };
        assert_eq!(of(&[]), "00000000");
        assert_eq!(of(&[0]), "00000001");
        assert_eq!(of(&[0, 0]), "00010040");
        assert_ne!(of(&[1, 2]), of(&[2, 1]));
    }

    #[test]
    fn an_identity_is_taken_by_halves() {
        let mut whole = Digest::default();
        whole.take_ids(&[0x0001_FFFE, 7]);
        let mut halves = Digest::default();
        halves.take_all(&[1u16, 0xFFFE, 0, 7]);
        assert_eq!(whole, halves);
    }
}
