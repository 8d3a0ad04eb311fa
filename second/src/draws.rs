//! Numbers drawn at random for long reads and large trees.

/// The row of numbers that draws come from.
pub struct Draws {
    state: usize,
}

impl Draws {
    /// The row that begins with a state.
    pub fn from_state(state: usize) -> Draws {
        Draws { state }
    }

    /// The next number below `limit`.
    pub fn below(&mut self, limit: usize) -> usize {
        self.state = (75 * self.state + 74) % 65_537;
        self.state % limit
    }
}

#[cfg(test)]
mod tests {
    use super::*;

    #[test]
    fn the_first_draws_follow_the_rule() {
        let mut draws = Draws::from_state(1);
        assert_eq!(draws.below(100), 49);
        assert_eq!(draws.below(65_537), 75 * 149 + 74);
        assert_eq!(draws.below(7), (75 * 11_249 + 74) % 65_537 % 7);
    }
}
