//! Which lengths each nonterminal can have, marks ignored.

use crate::rule::MOST_SYMBOLS;
use crate::shapes::{Shape, Shapes};

/// By nonterminal a set of lengths, bit n for n tokens. It never lacks one that a tree has, and
/// what it has spares the nodes of all other lengths.
pub struct Lengths([u128; MOST_SYMBOLS]);

impl Lengths {
    /// The lengths from 1 to `most`, which is 127 at most.
    pub fn of(shapes: &Shapes, most: usize) -> Lengths {
        let mut lengths = Lengths([0; MOST_SYMBOLS]);
        for length in 1..=most {
            while lengths.add(shapes, length) {}
        }
        lengths
    }

    /// Can the nonterminal have this length?
    pub fn has(&self, nonterminal: usize, length: usize) -> bool {
        self.0[nonterminal] >> length & 1 == 1
    }

    /// Adds the length to all that have it by one step; was there one?
    fn add(&mut self, shapes: &Shapes, length: usize) -> bool {
        let mut added = false;
        for left in 0..MOST_SYMBOLS {
            let steps = || shapes.of[left].iter().any(|it| self.by(it.shape, length));
            if !self.has(left, length) && steps() {
                self.0[left] |= 1 << length;
                added = true;
            }
        }
        added
    }

    fn by(&self, shape: Shape, length: usize) -> bool {
        match shape {
            Shape::Token(_) => length == 1,
            Shape::Whole { child, .. } => self.has(child, length),
            Shape::Parts { left, right, .. } => {
                (1..length).any(|cut| self.has(left, cut) && self.has(right, length - cut))
            }
        }
    }
}

#[cfg(test)]
mod tests {
    use super::*;
    use crate::rule::rules_of;

    #[test]
    fn lengths_add_up() {
        let sheet = b"left kind first second lay\n0 B 0 1 none\n0 U 1 - align\n1 B 2 2 none\n\
            2 A 0 - none\n3 U 3 - none\n";
        let lengths = Lengths::of(&Shapes::of(&rules_of(sheet)), 64);
        let of = |left| (0..=65).filter(|&n| lengths.has(left, n)).collect::<Vec<_>>();
        assert_eq!(of(0), (1..=32).map(|half| 2 * half).collect::<Vec<_>>());
        assert_eq!((of(1), of(2), of(3)), (vec![2], vec![1], vec![]));
    }
}
