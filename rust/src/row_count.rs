//! How many rows trees have.

use std::fmt;

use crate::{Answer, Refused, Reply};

/// How many rows a tree has.
#[derive(Clone, Copy, Debug, PartialEq, Eq, Hash)]
pub enum RowCount {
    /// Exactly so many.
    Exact(u32),
    /// More than 4,294,967,295.
    More,
}

impl RowCount {
    /// 2^32 stands for more than can be told.
    fn told(word: u64) -> RowCount {
        u32::try_from(word).map_or(RowCount::More, RowCount::Exact)
    }
}

impl fmt::Display for RowCount {
    fn fmt(&self, f: &mut fmt::Formatter<'_>) -> fmt::Result {
        match self {
            RowCount::Exact(count) => write!(f, "{count}"),
            RowCount::More => f.write_str("more"),
        }
    }
}

/// What [`rows`](crate::rows) answers.
#[derive(Clone, Copy, Debug, PartialEq, Eq, Hash)]
#[must_use]
pub struct RowsReply {
    /// The answer.
    pub answer: Answer,
    /// The line, as in [`Reply`].
    pub line: u32,
    /// The rows of the first tree; 0 where the verdict lacks it.
    pub first: RowCount,
    /// The rows of the second tree; 0 where the verdict lacks it.
    pub second: RowCount,
}

impl RowsReply {
    /// The answer, or a refusal as an error.
    pub fn result(&self) -> Result<Answer, Refused> {
        self.answer.result(self.line)
    }

    pub(crate) fn unpacked(word: u64, counts: [u64; 2]) -> RowsReply {
        let Reply { answer, line } = Reply::unpacked(word);
        let [first, second] = counts.map(RowCount::told);
        RowsReply { answer, line, first, second }
    }
}
