//! One share of a sweep that is divided among racks, as it is reported.

use crate::sentence::PLACES;
use crate::{Answer, Refused, SweepReply, Token};

/// The most racks.
pub const MOST_RACKS: usize = 64;

/// What [`share`](crate::share) answers.
#[derive(Clone, Copy, Debug, PartialEq, Eq)]
#[must_use]
pub struct ShareReply {
    /// The lowest number in the share that has two trees, among all
    /// arrangements of the length; 0 where there is none.
    pub number: u64,
    /// How many numbers each share has, but for the remainder.
    pub quotient: u64,
    /// How many of the first shares have one number more.
    pub remainder: u64,
    /// The answer, its line and the sentence with that number.
    pub found: SweepReply,
}

impl ShareReply {
    /// The answer, or a refusal as an error.
    pub fn result(&self) -> Result<Answer, Refused> {
        self.found.result()
    }

    /// The found sentence; empty where none is found.
    #[must_use]
    pub fn sentence(&self) -> &[Token] {
        self.found.sentence()
    }

    /// What the C function for two reports takes of one: the answer and its line,
    /// the lowest number, and the length of the sentence.
    pub(crate) fn words(&self) -> [u64; 3] {
        let word = self.found.answer.code() << 32 | u64::from(self.found.line);
        [word, self.number, self.found.length as u64]
    }

    pub(crate) fn unpacked(word: u64, numbers: [u64; 3], found: &[u64; PLACES]) -> ShareReply {
        let [number, quotient, remainder] = numbers;
        ShareReply { number, quotient, remainder, found: SweepReply::unpacked(word, found) }
    }
}
