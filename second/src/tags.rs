//! Trees as nested tags. Nodes go from the last to the first: all that is inside
//! a node is known when its turn comes, and what the node is written as is put
//! before what its parent has inside it so far.

use crate::tree::{Row, ROOT};

/// The text of a tree.
pub fn text_of(table: &[Row]) -> String {
    let mut inside = vec![String::new(); table.len()];
    for (v, row) in table.iter().enumerate().skip(1).rev() {
        let text = element(row.label, &inside[v]);
        inside[row.parent].insert_str(0, &text);
    }
    element(table[ROOT].label, &inside[ROOT])
}

/// A node by its label and what is inside it.
fn element(label: u16, inside: &str) -> String {
    match inside {
        "" => format!("<n{label}/>"),
        _ => format!("<n{label}>{inside}</n{label}>"),
    }
}

#[cfg(test)]
mod tests {
    use super::*;
    use crate::examples::chain;
    use crate::numbering::trees_of;
    use crate::tag_trees::{large, SHAPES, WIDTHS};
    use crate::tree::{rows_of, Tree};

    /// The same by events, the start and the end of each node. They are sorted by
    /// the ways down to the nodes, an end behind all that starts inside.
    fn by_events(table: &[Row]) -> String {
        let tree = Tree::linked(table);
        let mut events = Vec::new();
        for v in 0..table.len() {
            let mut way: Vec<usize> = tree.upward(v).collect();
            way.reverse();
            events.push((way.clone(), v));
            way.push(usize::MAX);
            events.push((way, v));
        }
        events.sort();
        let nodes: Vec<usize> = events.into_iter().map(|(_, v)| v).collect();
        let mut started = vec![false; table.len()];
        let mut text = String::new();
        for run in nodes.chunk_by(|one, other| one == other) {
            let (v, label) = (run[0], table[run[0]].label);
            text += &match run.len() {
                2 => format!("<n{label}/>"),
                _ if started[v] => format!("</n{label}>"),
                _ => format!("<n{label}>"),
            };
            started[v] = true;
        }
        text
    }

    #[test]
    fn the_examples() {
        assert_eq!(text_of(&chain("a")), "<n1/>");
        assert_eq!(text_of(&chain("ab")), "<n1><n2/></n1>");
        let table = rows_of(&[0, 7, 0, 10, 0, 65_535, 1, 9, 1, 100]);
        let text = "<n7><n10><n9/><n100/></n10><n65535/></n7>";
        assert_eq!(text_of(&table), text);
    }

    #[test]
    fn all_small_trees_are_as_by_events() {
        let small = (1..=5).flat_map(|nodes| trees_of(nodes, 3));
        let wide = (1..=2).flat_map(|nodes| trees_of(nodes, WIDTHS.len()));
        for table in small.chain(wide) {
            assert_eq!(text_of(&table), by_events(&table));
        }
    }

    #[test]
    fn large_trees_are_as_by_events() {
        for shape in 0..SHAPES.len() {
            for nodes in [2, 17, 100, 256] {
                let table = rows_of(&large(shape, nodes));
                assert_eq!(text_of(&table), by_events(&table));
            }
        }
    }
}
