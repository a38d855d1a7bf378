//! Sheets that a call gives.

use crate::{Answer, Refused, Reply};

/// What [`change`](crate::change) and [`expand`](crate::clauses::expand) answer. The sheet lies in the lent bytes.
#[derive(Clone, Copy, Debug)]
#[must_use]
pub struct SheetReply<'a> {
    /// The answer: given, or refused.
    pub answer: Answer,
    /// The line, as in [`Reply`].
    pub line: u32,
    /// The bytes of the sheet; none where the call is refused.
    pub sheet: &'a [u8],
}

impl<'a> SheetReply<'a> {
    /// The answer, or a refusal as an error.
    pub fn result(&self) -> Result<Answer, Refused> {
        self.answer.result(self.line)
    }

    pub(crate) fn unpacked(word: u64, count: usize, bytes: &'a [u8]) -> SheetReply<'a> {
        let Reply { answer, line } = Reply::unpacked(word);
        SheetReply { answer, line, sheet: &bytes[..count] }
    }
}
