//! The test at every length: where it cannot tell.

use std::fmt;

use crate::{Answer, Refused, Reply, MOST_RULES};

/// The words that the test needs, whatever the sheet.
pub const ALWAYS_WORDS: usize = 73_728;

/// The bytes of an entry in a lent list.
pub const DOUBT: usize = 4;

/// No list has more entries: one for each rule by itself, and two for each two
/// rules.
pub const MOST_DOUBTS: usize = MOST_RULES * MOST_RULES;

/// Why a nonterminal may have two trees.
#[derive(Clone, Copy, Debug, PartialEq, Eq, Hash)]
pub enum Why {
    /// Both rules may read one word.
    Rules,
    /// The rule, named twice, may part a word at two places.
    Cuts,
    /// Both rules have the empty word.
    Empty,
}

impl Why {
    /// 0 rules, 1 cuts, 2 empty.
    fn coded(code: u8) -> Why {
        match code {
            0 => Why::Rules,
            1 => Why::Cuts,
            2 => Why::Empty,
            _ => unreachable!("no entry has the code {code}"),
        }
    }
}

impl fmt::Display for Why {
    fn fmt(&self, f: &mut fmt::Formatter<'_>) -> fmt::Result {
        f.write_str(match self {
            Why::Rules => "rules",
            Why::Cuts => "cuts",
            Why::Empty => "empty",
        })
    }
}

/// A nonterminal of which the test cannot tell that no word has two trees.
#[derive(Clone, Copy, Debug, PartialEq, Eq, Hash)]
pub struct Doubt {
    /// The nonterminal.
    pub nonterminal: u8,
    /// One of its rules, by its place in the sheet, counted from 1.
    pub first: u8,
    /// Another one behind it, or the same for [`Why::Cuts`].
    pub second: u8,
    /// Why.
    pub why: Why,
}

/// The entries of a list: by nonterminal, first rule, second rule and why.
#[derive(Clone, Debug)]
pub struct Doubts<'a>(std::slice::ChunksExact<'a, u8>);

impl Iterator for Doubts<'_> {
    type Item = Doubt;

    fn next(&mut self) -> Option<Doubt> {
        let entry = self.0.next()?;
        let [nonterminal, first, second] = [entry[0], entry[1], entry[2]];
        Some(Doubt { nonterminal, first, second, why: Why::coded(entry[3]) })
    }

    fn size_hint(&self) -> (usize, Option<usize>) {
        self.0.size_hint()
    }
}

impl ExactSizeIterator for Doubts<'_> {}

/// What [`always`](crate::always) answers. The list lies in the lent bytes.
#[derive(Clone, Debug)]
#[must_use]
pub struct AlwaysReply<'a> {
    /// Clear, unknown or a refusal.
    pub answer: Answer,
    /// The line, as in [`Reply`].
    pub line: u32,
    /// The entries; none but for unknown.
    pub doubts: Doubts<'a>,
}

impl<'a> AlwaysReply<'a> {
    /// The answer, or a refusal as an error.
    pub fn result(&self) -> Result<Answer, Refused> {
        self.answer.result(self.line)
    }

    pub(crate) fn unpacked(word: u64, count: usize, list: &'a [u8]) -> AlwaysReply<'a> {
        let Reply { answer, line } = Reply::unpacked(word);
        let doubts = Doubts(list[..DOUBT * count].chunks_exact(DOUBT));
        AlwaysReply { answer, line, doubts }
    }
}
