//! Which verdicts some choice of columns gives.

use crate::{Answer, Refused, Reply};

/// What [`columns`](crate::columns) answers.
#[derive(Clone, Copy, Debug, PartialEq, Eq, Hash)]
#[must_use]
pub struct ColumnsReply {
    /// Given, or a refusal.
    pub answer: Answer,
    /// The line, as in [`Reply`].
    pub line: u32,
    /// Some rising choice has no tree; false on a refusal, as the others.
    pub none: bool,
    /// Some rising choice has just one.
    pub one: bool,
    /// Some rising choice has two or more.
    pub two: bool,
}

impl ColumnsReply {
    /// The answer, or a refusal as an error.
    pub fn result(&self) -> Result<Answer, Refused> {
        self.answer.result(self.line)
    }

    pub(crate) fn unpacked(word: u64, found: [u64; 3]) -> ColumnsReply {
        let Reply { answer, line } = Reply::unpacked(word);
        let [none, one, two] = found.map(|flag| flag != 0);
        ColumnsReply { answer, line, none, one, two }
    }
}
