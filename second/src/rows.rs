//! Rows of elements by number.

/// Every row of so many elements of these, the first element changing fastest.
pub fn rows<T: Copy>(elements: &[T], length: usize) -> impl Iterator<Item = Vec<T>> + '_ {
    let count = elements.len();
    let numbers = 0..count.pow(length as u32);
    numbers.map(move |number| {
        let place = |i: usize| number / count.pow(i as u32) % count;
        (0..length).map(|i| elements[place(i)]).collect()
    })
}

/// Every row of at most so many elements, the shorter ones first.
pub fn rows_to<T: Copy>(elements: &[T], most: usize) -> impl Iterator<Item = Vec<T>> + '_ {
    (0..=most).flat_map(|length| rows(elements, length))
}

#[cfg(test)]
mod tests {
    use super::*;

    #[test]
    fn the_first_element_changes_fastest() {
        let found: Vec<Vec<u8>> = rows_to(b"ab", 2).collect();
        let expected: [&[u8]; 7] = [b"", b"a", b"b", b"aa", b"ba", b"ab", b"bb"];
        assert_eq!(found, expected);
    }
}
