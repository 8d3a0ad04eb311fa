//! Inputs of every size, the same in every run.

/// Numbers drawn from a fixed seed.
pub struct Draws(u64);

impl Draws {
    pub fn new() -> Draws {
        Draws(20261115)
    }

    /// A number below m.
    pub fn below(&mut self, m: usize) -> usize {
        self.0 ^= self.0 << 13;
        self.0 ^= self.0 >> 7;
        self.0 ^= self.0 << 17;
        (self.0 % m as u64) as usize
    }
}

/// A root step with one name, then descendant steps with another.
pub fn descending(steps: usize, root: u16, name: u16) -> Vec<u16> {
    let mut pattern = vec![0, root];
    for _ in 1..steps {
        pattern.extend([2, name]);
    }
    pattern
}

/// The same with this name at the last step.
pub fn descending_to(steps: usize, root: u16, name: u16, end: u16) -> Vec<u16> {
    let mut pattern = descending(steps, root, name);
    pattern[2 * steps - 1] = end;
    pattern
}

/// A tree in which every node hangs below one drawn from those before it, with names from 1 on.
pub fn random_tree(nodes: usize, names: usize) -> Vec<u16> {
    let mut draws = Draws::new();
    let mut tree = vec![0, 1];
    for v in 1..nodes {
        tree.extend([draws.below(v) as u16, 1 + draws.below(names) as u16]);
    }
    tree
}

/// A chain with names from 1 on.
pub fn chain(nodes: usize, names: usize) -> Vec<u16> {
    let mut draws = Draws::new();
    let mut tree = vec![0, 1];
    for v in 1..nodes {
        tree.extend([v as u16 - 1, 1 + draws.below(names) as u16]);
    }
    tree
}

/// A chain with name 1 at the root, this one at the last node and 2 at all between.
pub fn chain_to(nodes: usize, name: u16) -> Vec<u16> {
    let mut tree = vec![0, 1];
    for v in 1..nodes {
        tree.extend([v as u16 - 1, if v + 1 == nodes { name } else { 2 }]);
    }
    tree
}

/// How many nodes lie on the longest way down.
pub fn depth(tree: &[u16]) -> usize {
    let mut depths: Vec<usize> = Vec::new();
    for (v, node) in tree.chunks(2).enumerate() {
        depths.push(if v == 0 { 1 } else { depths[node[0] as usize] + 1 });
    }
    depths.into_iter().max().unwrap_or(0)
}

/// Half updates, then half reads, all of so many steps and with other root names, so that no read conflicts, deeply or not, and
/// every read is compared with every update. Updates are deletes, or inserts of one node.
pub fn batch(inserts: bool, frames: usize, steps: usize) -> Vec<u16> {
    let update = if inserts { 2 } else { 3 };
    let mut words = Vec::new();
    for frame in 0..frames {
        let (kind, root) = if frame < frames / 2 { (update, 1) } else { (1, 2) };
        words.extend([kind, steps as u16]);
        words.extend(descending(steps, root, 3));
        if kind == 2 {
            words.extend([1, 0, 3]);
        }
    }
    words
}
