//! What is worked out of a rule sheet once, for all lengths.

use crate::guide::Guide;
use crate::lengths::Lengths;
use crate::loops::Loops;
use crate::rule::rules_of;
use crate::shapes::Shapes;

/// A sheet as the search takes it.
pub struct Sheet {
    pub shapes: Shapes,
    pub loops: Loops,
    pub lengths: Lengths,
    pub guide: Guide,
}

impl Sheet {
    /// Of an accepted rule sheet, for sentences of up to `most` tokens.
    pub fn new(rules: &[u8], most: usize, guide: Guide) -> Sheet {
        let shapes = Shapes::of(&rules_of(rules));
        let (loops, lengths) = (Loops::of(&shapes), Lengths::of(&shapes, most));
        Sheet { shapes, loops, lengths, guide }
    }
}
