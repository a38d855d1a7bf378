//! What every call answers.

use std::fmt;

use crate::{Refusal, Refused};

/// An answer of a call.
#[derive(Clone, Copy, Debug, PartialEq, Eq, Hash)]
#[must_use]
pub enum Answer {
    /// No valid tree.
    None,
    /// Exactly one valid tree.
    One,
    /// Two valid trees or more.
    Two,
    /// A sweep found no sentence that has two trees, or the test at every
    /// length says that there is none.
    Clear,
    /// What was asked for is given.
    Given,
    /// The test at every length cannot tell.
    Unknown,
    /// The call is refused.
    Refused(Refusal),
}

impl Answer {
    /// The answer of a code: 0 none, 1 one, 2 two, 3 clear, 4 given,
    /// 5 unknown, 100 + N refused-N.
    fn coded(code: u64) -> Answer {
        match code {
            0 => Answer::None,
            1 => Answer::One,
            2 => Answer::Two,
            3 => Answer::Clear,
            4 => Answer::Given,
            5 => Answer::Unknown,
            _ => Answer::Refused(refusal(code)),
        }
    }

    /// The code of the answer.
    pub(crate) fn code(self) -> u64 {
        match self {
            Answer::None => 0,
            Answer::One => 1,
            Answer::Two => 2,
            Answer::Clear => 3,
            Answer::Given => 4,
            Answer::Unknown => 5,
            Answer::Refused(refusal) => 100 + u64::from(refusal.number()),
        }
    }

    /// The answer, or the refusal with this line as an error.
    pub(crate) fn result(self, line: u32) -> Result<Answer, Refused> {
        match self {
            Answer::Refused(refusal) => Err(Refused { refusal, line }),
            _ => Ok(self),
        }
    }

    /// Is the call refused?
    #[must_use]
    pub fn is_refused(self) -> bool {
        matches!(self, Answer::Refused(_))
    }
}

/// The refusal of a code, 100 + its number.
fn refusal(code: u64) -> Refusal {
    let number = code.checked_sub(100).and_then(|number| u8::try_from(number).ok());
    let refusal = number.and_then(Refusal::numbered);
    refusal.unwrap_or_else(|| unreachable!("no answer has the code {code}"))
}

impl fmt::Display for Answer {
    fn fmt(&self, f: &mut fmt::Formatter<'_>) -> fmt::Result {
        match self {
            Answer::None => f.write_str("none"),
            Answer::One => f.write_str("one"),
            Answer::Two => f.write_str("two"),
            Answer::Clear => f.write_str("clear"),
            Answer::Given => f.write_str("given"),
            Answer::Unknown => f.write_str("unknown"),
            Answer::Refused(refusal) => refusal.fmt(f),
        }
    }
}

/// An answer and its line.
#[derive(Clone, Copy, Debug, PartialEq, Eq, Hash)]
#[must_use]
pub struct Reply {
    /// The answer.
    pub answer: Answer,
    /// The number of the refused line in its sheet, counted from 1; 0 where no
    /// line is refused. A line past `u32::MAX` counts as that.
    pub line: u32,
}

impl Reply {
    /// The answer, or a refusal as an error.
    pub fn result(self) -> Result<Answer, Refused> {
        self.answer.result(self.line)
    }

    /// Parts the code and the line, which the C functions answer as one number.
    pub(crate) fn unpacked(word: u64) -> Reply {
        Reply { answer: Answer::coded(word >> 32), line: word as u32 }
    }
}

impl fmt::Display for Reply {
    fn fmt(&self, f: &mut fmt::Formatter<'_>) -> fmt::Result {
        write!(f, "{} {}", self.answer, self.line)
    }
}

#[cfg(test)]
mod tests {
    use super::*;

    fn shown(code: u64, line: u64) -> String {
        Reply::unpacked(code << 32 | line).to_string()
    }

    #[test]
    fn codes_and_lines_are_parted() {
        assert_eq!(shown(0, 0), "none 0");
        assert_eq!(shown(1, 0), "one 0");
        assert_eq!(shown(2, 0), "two 0");
        assert_eq!(shown(3, 0), "clear 0");
        assert_eq!(shown(4, 0), "given 0");
        assert_eq!(shown(5, 0), "unknown 0");
        assert_eq!(shown(101, 1), "refused-1 1");
        assert_eq!(shown(147, u64::from(u32::MAX)), "refused-47 4294967295");
    }
}
