//! Right texts of patterns, all that there are to a length, and what is found by looking among them.

use crate::letters::{names, Name};
use crate::made_texts::MadeTexts;

/// What is written for a step that takes any name.
pub const STAR: &[u8] = b"*";

/// A start that some right text has becomes one with at most this many bytes more: the empty one needs `/a`, no other more than `a`.
const MISSING: usize = 2;

/// A step as it is written: its axis, and a name or a star.
#[derive(Clone, Debug, PartialEq, Eq)]
pub struct TextStep {
    pub axis: u16,
    pub word: Name,
}

/// Every right text to a length, with the steps from which it was made.
pub struct RightTexts {
    texts: MadeTexts<Vec<TextStep>>,
}

impl RightTexts {
    /// Every right text over an alphabet that answers for texts of at most so many bytes.
    pub fn over(alphabet: &[u8], most: usize) -> RightTexts {
        let most = most + MISSING;
        RightTexts::with_names(&names(alphabet, most), most)
    }

    /// Every right text of at most so many bytes whose names are among these.
    pub fn with_names(names: &[Name], most: usize) -> RightTexts {
        let mut words = [&[STAR.to_vec()], names].concat();
        words.sort_by_key(Vec::len);
        let mut texts = MadeTexts::default();
        let mut longest = vec![(Vec::new(), Vec::new())];
        while !longest.is_empty() {
            longest = longest
                .iter()
                .flat_map(|(text, steps)| one_step_more(text, steps, &words, most))
                .collect();
            texts.extend(longest.iter().cloned());
        }
        RightTexts { texts }
    }

    /// All of them.
    pub fn iter(&self) -> impl Iterator<Item = (&Vec<u8>, &Vec<TextStep>)> {
        self.texts.iter()
    }

    /// The steps of a text if it is right, else the length of its longest start that some right text has.
    pub fn steps(&self, text: &[u8]) -> Result<&[TextStep], usize> {
        self.texts.find(text).map(Vec::as_slice)
    }
}

/// A text with its steps, and one step more of each kind that leaves at most so many bytes; words are in order of length.
fn one_step_more<'a>(
    text: &'a [u8],
    steps: &'a [TextStep],
    words: &'a [Name],
    most: usize,
) -> impl Iterator<Item = (Vec<u8>, Vec<TextStep>)> + 'a {
    let axes: &[(u16, &[u8])] = if steps.is_empty() {
        &[(0, b"/")]
    } else {
        &[(1, b"/"), (2, b"//")]
    };
    axes.iter().flat_map(move |&(axis, slashes)| {
        let fits = move |word: &&Name| text.len() + slashes.len() + word.len() <= most;
        words.iter().take_while(fits).map(move |word| {
            let step = TextStep {
                axis,
                word: word.clone(),
            };
            ([text, slashes, word].concat(), [steps, &[step]].concat())
        })
    })
}

#[cfg(test)]
mod tests {
    use super::*;
    use crate::rows::rows_to;

    #[test]
    fn no_text_is_made_twice() {
        let names = names(b"ab-", 4);
        let count = |most: usize| RightTexts::with_names(&names, most).iter().count();
        // 3 words of one byte, 6 of two, 18 of three, 54 of four
        assert_eq!(count(2), 3);
        assert_eq!(count(3), 3 + 6);
        assert_eq!(count(4), 3 + 6 + (18 + 3 * 3));
        assert_eq!(
            count(5),
            3 + 6 + (18 + 3 * 3) + (54 + 3 * 6 + 6 * 3 + 3 * 3)
        );
    }

    #[test]
    fn the_place_of_a_wrong_text_is_its_longest_start() {
        let right = RightTexts::over(b"/*ab-:", 6);
        let place = |text: &[u8]| right.steps(text).unwrap_err();
        assert_eq!(place(b""), 0);
        assert_eq!(place(b"a"), 0);
        assert_eq!(place(b"/"), 1);
        assert_eq!(place(b"//a"), 1);
        assert_eq!(place(b"/-a"), 1);
        assert_eq!(place(b"/a/"), 3);
        assert_eq!(place(b"/a//"), 4);
        assert_eq!(place(b"/a///b"), 4);
        assert_eq!(place(b"/a:b"), 2);
        assert_eq!(place(b"/a*"), 2);
        assert_eq!(place(b"/**"), 2);
        assert_eq!(place(b"/*a"), 2);
    }

    #[test]
    fn two_bytes_past_the_bound_are_enough() {
        let (near, far) = (RightTexts::over(b"ab-", 4), RightTexts::over(b"ab-", 6));
        for text in rows_to(b"/*ab-:", 4) {
            assert_eq!(near.steps(&text), far.steps(&text), "{text:?}");
        }
    }

    #[test]
    fn a_right_text_has_its_steps() {
        let right = RightTexts::over(b"/*ab-", 6);
        let step = |axis, word: &[u8]| TextStep {
            axis,
            word: word.to_vec(),
        };
        let found = right.steps(b"/a-//*").unwrap();
        assert_eq!(found, [step(0, b"a-"), step(2, b"*")]);
    }
}
