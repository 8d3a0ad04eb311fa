//! The bytes of which names are made, and names.

/// What Unicode counts as letters and XML 1.0 lets into no name.
const NO_LETTERS: [char; 3] = ['ª', 'µ', 'º'];

/// What a name goes on with, letters and digits aside.
const MARKS: [char; 4] = ['_', '-', '.', '·'];

/// A name of a step or a list: it has no colon.
pub type Name = Vec<u8>;

/// True when a name may start with this byte.
fn starts(byte: u8) -> bool {
    let c = char::from(byte);
    c == '_' || (c.is_alphabetic() && !NO_LETTERS.contains(&c))
}

/// True when a name may go on with this byte.
fn goes_on(byte: u8) -> bool {
    let c = char::from(byte);
    starts(byte) || c.is_ascii_digit() || MARKS.contains(&c)
}

/// Every name over an alphabet with at most so many bytes.
pub fn names(alphabet: &[u8], most: usize) -> Vec<Name> {
    let firsts = alphabet.iter().filter(|&&byte| starts(byte));
    let laters: Vec<u8> = alphabet.iter().copied().filter(|&b| goes_on(b)).collect();
    let mut found = Vec::new();
    let mut longest: Vec<Name> = firsts.map(|&byte| vec![byte]).collect();
    for _ in 0..most {
        let longer = longest
            .iter()
            .flat_map(|name| laters.iter().map(|&byte| [&name[..], &[byte]].concat()));
        let longer = longer.collect();
        found.append(&mut longest);
        longest = longer;
    }
    found
}

#[cfg(test)]
mod tests {
    use super::*;

    /// What may start a name, written out; the colon is left to names with one.
    const STARTS: &str = "ABCDEFGHIJKLMNOPQRSTUVWXYZ_abcdefghijklmnopqrstuvwxyz\
        ÀÁÂÃÄÅÆÇÈÉÊËÌÍÎÏÐÑÒÓÔÕÖØÙÚÛÜÝÞßàáâãäåæçèéêëìíîïðñòóôõöøùúûüýþÿ";

    /// What may only go on with it.
    const ONLY_GOES_ON: &str = "-.0123456789·";

    #[test]
    fn every_byte_is_as_written_out() {
        for byte in 0..=u8::MAX {
            let c = char::from(byte);
            let start = STARTS.contains(c);
            assert_eq!(starts(byte), start, "{byte}");
            assert_eq!(goes_on(byte), start || ONLY_GOES_ON.contains(c), "{byte}");
        }
    }

    #[test]
    fn names_are_made_in_order_of_length() {
        let found = names(b"a-:*", 3);
        let expected: [&[u8]; 7] = [b"a", b"aa", b"a-", b"aaa", b"aa-", b"a-a", b"a--"];
        assert_eq!(found, expected);
    }
}
