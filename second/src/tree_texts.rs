//! Tree tables written as text: the checks, then the tags, then the room.

use crate::buffers::fitting;
use crate::checks;
use crate::limits::TAGGED_NODES;
use crate::refusal::{Refusal, DOCUMENT};
use crate::tags::text_of;

/// The bytes of a tree's tags, if there is room for them.
pub fn write(words: &[u16], room: usize) -> Result<Vec<u8>, Refusal> {
    let rows = checks::tree(words, TAGGED_NODES, DOCUMENT)?;
    fitting(text_of(&rows).into_bytes(), room)
}

#[cfg(test)]
mod tests {
    use super::*;
    use crate::tag_trees::large;

    /// A tree's refusal by its number and place.
    fn no(number: usize, place: usize) -> Result<Vec<u8>, Refusal> {
        Err(Refusal {
            number,
            table: DOCUMENT,
            place,
        })
    }

    #[test]
    fn refusals_come_in_order() {
        assert_eq!(write(&[], 0), no(1, 0));
        assert_eq!(write(&[9], 0), no(1, 0));
        assert_eq!(write(&[9; 2_051], 0), no(1, 0));
        assert_eq!(write(&[9; 2_050], 0), no(2, 0));
        assert_eq!(write(&[9; 2_048], 0), no(4, 0));
        assert_eq!(write(&[1, 0], 0), no(4, 0));
        assert_eq!(write(&[0, 0, 1, 0], 0), no(5, 0));
        assert_eq!(write(&[0, 1, 1, 0], 0), no(4, 1));
        assert_eq!(write(&[0, 1, 0, 0, 2, 1], 0), no(5, 1));
        assert_eq!(write(&[0, 1, 0, 2, 2, 0], 0), no(4, 2));
    }

    #[test]
    fn the_room_is_told_last() {
        let too_short = Refusal {
            number: 7,
            table: 4,
            place: 0,
        };
        assert_eq!(write(&[0, 1, 0, 2], 13), Err(too_short));
        let text = b"<n1><n2/></n1>".to_vec();
        assert_eq!(write(&[0, 1, 0, 2], 14), Ok(text));
    }

    #[test]
    fn the_limit_passes_and_one_more_is_refused() {
        assert!(write(&large(1, 1_024), 20_000).is_ok());
        assert_eq!(write(&large(1, 1_025), 20_000), no(2, 0));
    }
}
