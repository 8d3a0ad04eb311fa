//! Trees of linked nodes, and the rows they are made from.

/// One node of a tree table: the parent's number (0 for the root) and the label.
#[derive(Clone, Copy, Debug, PartialEq, Eq)]
pub struct Row {
    pub parent: usize,
    pub label: u16,
}

/// The rows of a table's words, two a node.
pub fn rows_of(words: &[u16]) -> Vec<Row> {
    let row = |pair: &[u16]| Row {
        parent: usize::from(pair[0]),
        label: pair[1],
    };
    words.chunks(2).map(row).collect()
}

/// The words of a table's rows.
pub fn words_of(table: &[Row]) -> Vec<u16> {
    let pair = |row: &Row| [row.parent as u16, row.label];
    table.iter().flat_map(pair).collect()
}

/// A node with links up and down.
#[derive(Clone, Debug)]
pub struct Node {
    pub label: u16,
    pub parent: Option<usize>,
    pub children: Vec<usize>,
    pub removed: bool,
}

/// A tree. A node's number is its place in the list of nodes and is never given to
/// another node, as nothing leaves the list.
#[derive(Clone, Debug)]
pub struct Tree {
    nodes: Vec<Node>,
}

/// The number of every tree's root.
pub const ROOT: usize = 0;

impl Tree {
    /// The linked tree that a table describes, with every node present.
    pub fn linked(table: &[Row]) -> Tree {
        let mut tree = Tree { nodes: Vec::new() };
        for (number, row) in table.iter().enumerate() {
            let parent = (number != ROOT).then_some(row.parent);
            tree.add(parent, row.label);
        }
        tree
    }

    /// Hangs a new present leaf under `parent` and gives its number.
    pub fn add(&mut self, parent: Option<usize>, label: u16) -> usize {
        let number = self.nodes.len();
        self.nodes.push(Node {
            label,
            parent,
            children: Vec::new(),
            removed: false,
        });
        if let Some(parent) = parent {
            self.nodes[parent].children.push(number);
        }
        number
    }

    /// Marks a node and all that lies below it as removed, and gives the number
    /// of nodes that were present until now.
    pub fn remove(&mut self, number: usize) -> usize {
        let fresh = usize::from(!self.nodes[number].removed);
        self.nodes[number].removed = true;
        let children = self.nodes[number].children.clone();
        fresh + children.into_iter().map(|c| self.remove(c)).sum::<usize>()
    }

    /// The node with this number.
    pub fn node(&self, number: usize) -> &Node {
        &self.nodes[number]
    }

    /// All nodes, removed ones too, in rising number.
    pub fn nodes(&self) -> &[Node] {
        &self.nodes
    }

    /// A node and those above it, from itself up to the root.
    pub fn upward(&self, number: usize) -> impl Iterator<Item = usize> + '_ {
        std::iter::successors(Some(number), |&n| self.node(n).parent)
    }
}
