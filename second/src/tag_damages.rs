//! Texts of trees, written at length, put inside another element, and damaged.

/// So many bytes of a text are damaged.
const PLACES: usize = 40;

/// They are so far apart, and go on from the start where the text ends.
const APART: usize = 41;

/// A text damaged in one place: the byte is left out, stands there twice, or becomes another; this changes fastest.
pub fn damaged(text: &[u8]) -> impl Iterator<Item = Vec<u8>> + '_ {
    let places = (0..PLACES).map(|k| APART * k % text.len());
    places.flat_map(|place| {
        let (before, behind) = (&text[..place], &text[place + 1..]);
        let twice = [text[place]; 2];
        let instead: [&[u8]; 6] = [b"", &twice, b"<", b"/", b">", b"1"];
        instead.map(|bytes| [before, bytes, behind].concat())
    })
}

/// A text with a start tag and an end tag for every short tag.
pub fn at_length(text: &str) -> Vec<u8> {
    let tags = text.split_inclusive('>');
    let long = tags.map(|tag| match tag.strip_suffix("/>") {
        Some(start) => format!("{start}></{}>", &start[1..]),
        None => tag.to_string(),
    });
    long.collect::<String>().into_bytes()
}

/// A text inside an element with label 1.
pub fn inside_another(text: &[u8]) -> Vec<u8> {
    [b"<n1>", text, b"</n1>"].concat()
}

#[cfg(test)]
mod tests {
    use super::*;

    #[test]
    fn every_byte_of_a_short_text_is_damaged() {
        let found: Vec<Vec<u8>> = damaged(b"<n2/>").collect();
        assert_eq!(found.len(), 6 * PLACES);
        assert_eq!(found[0], b"n2/>");
        assert_eq!(found[1], b"<<n2/>");
        assert_eq!(found[11], b"<12/>");
        assert_eq!(found[6 * PLACES - 1], b"<n2/1");
    }

    #[test]
    fn no_tag_is_short_at_length() {
        assert_eq!(at_length("<n12/>"), b"<n12></n12>");
        assert_eq!(
            at_length("<n1><n2/><n3/></n1>"),
            b"<n1><n2></n2><n3></n3></n1>"
        );
    }

    #[test]
    fn an_element_is_put_around() {
        assert_eq!(inside_another(b"<n2/>"), b"<n1><n2/></n1>");
    }
}
