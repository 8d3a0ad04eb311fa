//! Texts that were made, and what is found by looking among them.

use std::collections::BTreeMap;
use std::ops::Bound;

/// Texts, each with what it was made from.
pub struct MadeTexts<T> {
    texts: BTreeMap<Vec<u8>, T>,
}

impl<T> Default for MadeTexts<T> {
    /// None yet.
    fn default() -> MadeTexts<T> {
        let texts = BTreeMap::new();
        MadeTexts { texts }
    }
}

impl<T> MadeTexts<T> {
    /// Some more.
    pub fn extend(&mut self, more: impl IntoIterator<Item = (Vec<u8>, T)>) {
        self.texts.extend(more);
    }

    /// All of them, in order.
    pub fn iter(&self) -> impl Iterator<Item = (&Vec<u8>, &T)> {
        self.texts.iter()
    }

    /// What a text was made from if it is among them, else the length of its longest start that some of them has.
    pub fn find(&self, text: &[u8]) -> Result<&T, usize> {
        self.texts.get(text).ok_or_else(|| self.longest_start(text))
    }

    /// The length of the longest start that some of them has.
    fn longest_start(&self, text: &[u8]) -> usize {
        let lengths = (0..=text.len()).rev();
        let mut had = lengths.filter(|&length| self.some_begins(&text[..length]));
        had.next().unwrap_or(0)
    }

    /// True when some of them begins so: the first that is not before it in order does, or none.
    fn some_begins(&self, start: &[u8]) -> bool {
        let from = (Bound::Included(start), Bound::Unbounded);
        let mut behind = self.texts.range::<[u8], _>(from);
        behind
            .next()
            .is_some_and(|(text, _)| text.starts_with(start))
    }
}

#[cfg(test)]
mod tests {
    use super::*;

    #[test]
    fn a_text_is_found_or_its_longest_start() {
        let mut made = MadeTexts::default();
        made.extend([(b"ab".to_vec(), 1), (b"abcd".to_vec(), 2)]);
        assert_eq!(made.find(b"ab"), Ok(&1));
        assert_eq!(made.find(b"abcd"), Ok(&2));
        assert_eq!(made.find(b"abc"), Err(3));
        assert_eq!(made.find(b"abd"), Err(2));
        assert_eq!(made.find(b"b"), Err(0));
    }
}
