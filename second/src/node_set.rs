//! Sets of nodes, held by the nodes' numbers.

/// A set of node numbers below 64.
#[derive(Clone, Copy, Debug, Default, PartialEq, Eq)]
pub struct NodeSet {
    members: u64,
}

impl NodeSet {
    /// Every set of numbers below `count`, which is below 64 itself.
    pub fn all_below(count: usize) -> impl Iterator<Item = NodeSet> {
        (0..1 << count).map(|members| NodeSet { members })
    }

    /// Puts a number into the set.
    pub fn put(&mut self, number: usize) {
        assert!(number < 64, "a tree tried here has fewer than 64 nodes");
        self.members |= 1 << number;
    }

    /// True when the number is in the set.
    pub fn has(&self, number: usize) -> bool {
        number < 64 && self.members >> number & 1 == 1
    }

    /// What is in this set, in the other one or in both.
    pub fn with(self, other: NodeSet) -> NodeSet {
        NodeSet {
            members: self.members | other.members,
        }
    }

    /// What is in this set and not in the other one.
    pub fn without(self, other: NodeSet) -> NodeSet {
        NodeSet {
            members: self.members & !other.members,
        }
    }

    /// True when nothing is in the set.
    pub fn is_empty(&self) -> bool {
        self.members == 0
    }

    /// How many numbers are in the set.
    pub fn size(&self) -> usize {
        self.rising().count()
    }

    /// The numbers of the set in rising order.
    pub fn rising(self) -> impl Iterator<Item = usize> {
        (0..64).filter(move |&number| self.has(number))
    }
}
