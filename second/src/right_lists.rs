//! Right lists of names, all that there are to a length, and what is found by looking among them.

use crate::letters::{names, Name};
use std::collections::HashMap;
use std::slice;

/// Every right list to a length, with the names from which it was made.
pub struct RightLists {
    lists: HashMap<Vec<u8>, Vec<Name>>,
}

impl RightLists {
    /// Every list of distinct names over an alphabet with at most so many bytes, each name ended by a line feed. It is short enough to have
    /// fewer than 256.
    pub fn over(alphabet: &[u8], most: usize) -> RightLists {
        let names = names(alphabet, most);
        let mut lists = HashMap::new();
        let mut longest = vec![(Vec::new(), Vec::new())];
        while !longest.is_empty() {
            lists.extend(longest.iter().cloned());
            longest = longest
                .iter()
                .flat_map(|(list, listed)| one_name_more(list, listed, &names, most))
                .collect();
        }
        RightLists { lists }
    }

    /// The names of a list if it is right, else the first entry, from 0, at which it breaks: as many names as a start of it has that is a
    /// right list.
    pub fn names(&self, list: &[u8]) -> Result<&[Name], usize> {
        if let Some(names) = self.lists.get(list) {
            return Ok(names);
        }
        let starts = (0..list.len()).filter_map(|length| self.lists.get(&list[..length]));
        Err(starts.map(Vec::len).max().unwrap_or(0))
    }
}

/// A list with its names, and each name more that is not in it and leaves at most so many bytes; names are in order of length.
fn one_name_more<'a>(
    list: &'a [u8],
    listed: &'a [Name],
    names: &'a [Name],
    most: usize,
) -> impl Iterator<Item = (Vec<u8>, Vec<Name>)> + 'a {
    let fits = move |name: &&Name| list.len() + name.len() < most;
    let others = names.iter().take_while(fits);
    let others = others.filter(|name| !listed.contains(name));
    others.map(move |name| {
        let longer = [list, name, b"\n"].concat();
        (longer, [listed, slice::from_ref(name)].concat())
    })
}

#[cfg(test)]
mod tests {
    use super::*;

    #[test]
    fn names_stand_in_their_order() {
        let lists = RightLists::over(b"ab-", 6);
        let expected: [&[u8]; 2] = [b"b", b"a-"];
        assert_eq!(lists.names(b"b\na-\n").unwrap(), expected);
        assert_eq!(lists.names(b""), Ok(&[][..]));
    }

    #[test]
    fn a_wrong_list_breaks_at_an_entry() {
        let lists = RightLists::over(b"ab-:", 8);
        let place = |list: &[u8]| lists.names(list).unwrap_err();
        assert_eq!(place(b"a"), 0);
        assert_eq!(place(b"\n"), 0);
        assert_eq!(place(b"-\na\n"), 0);
        assert_eq!(place(b"a\na\n"), 1);
        assert_eq!(place(b"a\n\nb\n"), 1);
        assert_eq!(place(b"a\nb"), 1);
        assert_eq!(place(b"a\nb\na\nb\n"), 2);
        assert_eq!(place(b"a\na:b\n"), 1);
        assert_eq!(place(b"a\nb\na"), 2);
    }
}
