//! Tags read into tree tables: the text, then the number of nodes, then the room.

use crate::buffers::fitting;
use crate::limits::TAGGED_NODES;
use crate::refusal::{number, refused, Refusal, INSERTED, TEXT};
use crate::tree::{words_of, Row};

/// What a text means: the rows of its tree if it is right, else the length of its longest start that some right text has.
pub type Meaning = Result<Vec<Row>, usize>;

/// The words of the tree that a text means, if there is room for them.
pub fn read(meaning: &Meaning, room: usize) -> Result<Vec<u16>, Refusal> {
    let rows = meaning.as_ref();
    let rows = rows.map_err(|&place| refused(number::WRONG_TEXT, TEXT, place))?;
    if rows.len() > TAGGED_NODES {
        return Err(refused(number::PAST_LIMIT, INSERTED, 0));
    }
    fitting(words_of(rows), room)
}

#[cfg(test)]
mod tests {
    use super::*;

    /// A star of so many nodes.
    fn star(nodes: usize) -> Meaning {
        let row = Row {
            parent: 0,
            label: 1,
        };
        Ok(vec![row; nodes])
    }

    #[test]
    fn refusals_come_in_order() {
        assert_eq!(read(&Err(3), 0), Err(refused(14, 7, 3)));
        assert_eq!(read(&star(1_025), 0), Err(refused(2, 3, 0)));
        assert_eq!(read(&star(1_025), 2_050), Err(refused(2, 3, 0)));
        assert_eq!(read(&star(1_024), 2_047), Err(refused(7, 4, 0)));
        assert_eq!(read(&star(1_024), 2_048).unwrap().len(), 2_048);
        assert_eq!(read(&star(2), 9), Ok(vec![0, 1, 0, 1]));
    }
}
