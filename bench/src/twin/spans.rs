//! The span sheet: a pair of words for each span of a sentence.

use super::grammar::has;
use super::Verdict;

/// Two sets of nonterminals: those that have a tree over a span, and those that
/// have two. Or two words of cuts, see `cuts`.
#[derive(Clone, Copy, Debug, Default, PartialEq)]
pub struct Pair {
    pub one: u64,
    pub two: u64,
}

/// How many words the span sheet of `n` tokens has.
pub fn size(n: usize) -> usize {
    2 * (1 + n * (n + 1) / 2)
}

/// The place of a span's first word in the sheet of `n` tokens.
pub fn place(n: usize, start: usize, len: usize) -> usize {
    if len == 0 {
        return 0;
    }
    let k = len - 1;
    2 * (1 + k * (2 * n + 1 - k) / 2 + start)
}

impl Pair {
    pub fn at(words: &[u64], place: usize) -> Pair {
        Pair { one: words[place], two: words[place + 1] }
    }

    pub fn put(self, words: &mut [u64], place: usize) {
        words[place] = self.one;
        words[place + 1] = self.two;
    }

    /// What differs.
    pub fn changed(self, other: Pair) -> Pair {
        Pair { one: self.one ^ other.one, two: self.two ^ other.two }
    }

    /// With what has a tree, or two, in the other.
    pub fn with(self, other: Pair) -> Pair {
        Pair { one: self.one | other.one, two: self.two | other.two }
    }

    /// The verdict, if this is the pair of the whole sentence.
    pub fn verdict(self) -> Verdict {
        if has(self.two, 0) {
            Verdict::Two
        } else if has(self.one, 0) {
            Verdict::One
        } else {
            Verdict::None
        }
    }
}

/// The verdict by the filled sheet of `n` tokens.
pub fn verdict(words: &[u64], n: usize) -> Verdict {
    Pair::at(words, place(n, 0, n)).verdict()
}
