//! What can happen to a word of a batch.

/// What a word is replaced by: every count that a damaged batch has room for,
/// the limits of steps and nodes and one more than each, the greatest word.
const VALUES: [u16; 21] = [
    0, 1, 2, 3, 4, 5, 6, 7, 8, 9, 10, 11, 12, 13, 14, 15, //
    255, 256, 1_024, 1_025, 65_535,
];

/// What happens to a word.
#[derive(Clone, Copy)]
pub enum Damage {
    Replaced(u16),
    Lost,
    Twice,
}

/// The damages of a word: its values, its loss, its doubling.
pub fn damages() -> impl Iterator<Item = Damage> {
    let values = VALUES.into_iter().map(Damage::Replaced);
    values.chain([Damage::Lost, Damage::Twice])
}

/// The words with one of them damaged; only it and those behind it move.
pub fn harmed(words: &[u16], (word, damage): (usize, Damage)) -> Vec<u16> {
    let (before, rest) = words.split_at(word);
    match damage {
        Damage::Replaced(value) => [before, &[value], &rest[1..]].concat(),
        Damage::Lost => [before, &rest[1..]].concat(),
        Damage::Twice => [before, &rest[..1], rest].concat(),
    }
}

#[cfg(test)]
mod tests {
    use super::*;
    use Damage::{Lost, Replaced, Twice};

    #[test]
    fn a_word_is_damaged_in_place() {
        let of = |damage| harmed(&[4, 5, 6], (1, damage));
        assert_eq!(of(Replaced(9)), [4, 9, 6]);
        assert_eq!(of(Lost), [4, 6]);
        assert_eq!(of(Twice), [4, 5, 5, 6]);
    }

    #[test]
    fn a_word_has_23_damages() {
        assert_eq!(damages().count(), 23);
    }
}
