//! The sentence of a sweep.

use crate::{Answer, Refused, Reply, MOST_BOUND};

/// A line's number. It is never compared with a column.
#[derive(Clone, Copy, Debug, Default, PartialEq, Eq, PartialOrd, Ord, Hash)]
pub struct Line(pub u16);

/// A column's number. It is never compared with a line.
#[derive(Clone, Copy, Debug, Default, PartialEq, Eq, PartialOrd, Ord, Hash)]
pub struct Column(pub u16);

/// A terminal and where it stands. The tokens of a sweep have width 1.
#[derive(Clone, Copy, Debug, Default, PartialEq, Eq, Hash)]
pub struct Token {
    /// The terminal, 0 to 63.
    pub terminal: u8,
    /// The line, from 1.
    pub line: Line,
    /// The column, from 1.
    pub column: Column,
}

/// The words in which the C function hands over what a sweep found: the
/// sentence's length, then terminal, line and column of each place, then how
/// many candidates were tried.
pub(crate) const PLACES: usize = 2 + 3 * MOST_BOUND;

/// What [`sweep`](crate::sweep) answers.
#[derive(Clone, Copy, Debug, PartialEq, Eq)]
#[must_use]
pub struct SweepReply {
    /// The answer.
    pub answer: Answer,
    /// The line, as in [`Reply`].
    pub line: u32,
    /// The sentence's length; 0 where none is found.
    pub length: usize,
    /// The sentence's tokens; places past its length are 0.
    pub places: [Token; MOST_BOUND],
    /// How many candidates were tried: all of 1 to `bound` tokens and of the
    /// lengths that nonterminal 0 can have when all marks are ignored, or those
    /// up to and with the found one; 0 where the sweep is refused.
    pub tried: u64,
}

impl SweepReply {
    /// The answer, or a refusal as an error.
    pub fn result(&self) -> Result<Answer, Refused> {
        self.answer.result(self.line)
    }

    /// The found sentence; empty where none is found.
    #[must_use]
    pub fn sentence(&self) -> &[Token] {
        &self.places[..self.length]
    }

    pub(crate) fn unpacked(word: u64, found: &[u64; PLACES]) -> SweepReply {
        let Reply { answer, line } = Reply::unpacked(word);
        let mut places = [Token::default(); MOST_BOUND];
        for (place, words) in places.iter_mut().zip(found[1..PLACES - 1].chunks_exact(3)) {
            *place = token(words);
        }
        let [length, .., tried] = *found;
        SweepReply { answer, line, length: length as usize, places, tried }
    }
}

/// The token of three words.
fn token(words: &[u64]) -> Token {
    let terminal = u8::try_from(words[0]).expect("a terminal is below 64");
    let line = u16::try_from(words[1]).expect("a line has 16 bits");
    let column = u16::try_from(words[2]).expect("a column has 16 bits");
    Token { terminal, line: Line(line), column: Column(column) }
}
