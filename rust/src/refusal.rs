//! Refusals by name.

use std::fmt;

// made by scripts/refusals.py from docs/refusals.tsv
/// Why a call is refused, in the order in which calls look.
#[derive(Clone, Copy, Debug, PartialEq, Eq, Hash)]
#[non_exhaustive]
pub enum Refusal {
    /// 1, rule sheet, line 1: the names are not `left kind first second lay` (of a
    /// clause sheet `left clause`), ended by byte 10.
    RuleNames = 1,
    /// 6, each rule line: a 129th rule.
    RuleMany = 6,
    /// 2, each rule line: not five fields parted by one blank each and ended by
    /// byte 10, a kind or lay unknown, `-` where a number belongs or the reverse,
    /// or a number not of one to five digits.
    RuleForm = 2,
    /// 3, each rule line: a number above 63.
    RuleRange = 3,
    /// 4, each rule line: a lay that the kind does not allow.
    RuleLay = 4,
    /// 44, each rule line: an A rule whose second terminal is below its first.
    RuleReversed = 44,
    /// 5, each rule line: an earlier rule has the same left, kind, first and
    /// second, under any lay; for an A rule: an earlier A rule of the same left
    /// shares a terminal.
    RuleTwice = 5,
    /// 41, each clause line: not a number of 0 to 63, a blank and an expression as
    /// docs/FORMAT.md has it, ended by byte 10, depth aside.
    ClauseForm = 41,
    /// 42, each clause line: groups nested deeper than sixteen levels.
    ClauseDeep = 42,
    /// 43, clause sheet, end: the expansion has a nonterminal past 63 or more than
    /// 128 rules.
    ClauseMany = 43,
    /// 7, rule sheet, end: no rule has left 0.
    NoStart = 7,
    /// 11, token sheet, line 1: the names are neither `term line col` nor `term
    /// line col width` (of a range sheet not `term line low high`), ended by byte
    /// 10.
    TokenNames = 11,
    /// 14, each token line: a 65th token.
    TokenMany = 14,
    /// 12, each token line: not three numbers (with `width`, and in a range sheet,
    /// four) parted by one blank each and ended by byte 10, or a number not of one
    /// to five digits.
    TokenForm = 12,
    /// 13, each token line: a terminal above 63, or a line, column or end of a
    /// column that is 0 or above 65,535.
    TokenRange = 13,
    /// 47, each token line: a width that is 0 or above 255, or column plus width
    /// above 65,536.
    TokenWidth = 47,
    /// 15, each token line: not after the token before: an earlier line, or the
    /// same line and a column before that token's column plus width.
    TokenOrder = 15,
    /// 48, range line, after 13: the upper end of the column is below the lower
    /// one.
    RangeEnds = 48,
    /// 49, range sheet, end: the ends allow more than 65,536 choices of columns,
    /// rising or not.
    ManyChoices = 49,
    /// 50, each rights line: the names are not `user low high may`, or a line is
    /// not three numbers of one to five digits and `see` or `change`, parted by one
    /// blank each and ended by byte 10; a user above 15; a range above 63 or
    /// reversed.
    Rights = 50,
    /// 51, change: the user may not change that rule, or there is no such rule.
    NoRight = 51,
    /// 23, sweep, a share: the bound, or the length of a share, is not 1 to 7.
    BadBound = 23,
    /// 24, sweep, a share: the sweep is too large: `T^k * 3^(k-1) * k^k` is above
    /// 4,294,967,296.
    ManyCandidates = 24,
    /// 45, a share: the number of racks is not 1 to 64.
    BadRacks = 45,
    /// 46, a share: the share is not below the number of racks.
    BadShare = 46,
    /// 21, lent words: fewer words are lent than the span sheet needs (for a sweep
    /// or a share: with as many tokens as the bound or the length; for the test at
    /// every length: than 73,728).
    FewWords = 21,
    /// 22, lent tree rows: a tree of the answer has more rows than its memory has
    /// whole places of four bytes (`check` lends 4,096), or a list does not fit
    /// into the bytes lent for it.
    FewRows = 22,
}

impl Refusal {
    /// All refusals, in the order in which calls look.
    pub const ALL: [Refusal; 27] = [
        Refusal::RuleNames,
        Refusal::RuleMany,
        Refusal::RuleForm,
        Refusal::RuleRange,
        Refusal::RuleLay,
        Refusal::RuleReversed,
        Refusal::RuleTwice,
        Refusal::ClauseForm,
        Refusal::ClauseDeep,
        Refusal::ClauseMany,
        Refusal::NoStart,
        Refusal::TokenNames,
        Refusal::TokenMany,
        Refusal::TokenForm,
        Refusal::TokenRange,
        Refusal::TokenWidth,
        Refusal::TokenOrder,
        Refusal::RangeEnds,
        Refusal::ManyChoices,
        Refusal::Rights,
        Refusal::NoRight,
        Refusal::BadBound,
        Refusal::ManyCandidates,
        Refusal::BadRacks,
        Refusal::BadShare,
        Refusal::FewWords,
        Refusal::FewRows,
    ];

    /// What the refusal means, in words.
    #[must_use]
    pub const fn meaning(self) -> &'static str {
        match self {
            Refusal::RuleNames => {
                "the names are not `left kind first second lay` (of a clause sheet `left clause`), ended by byte 10"
            }
            Refusal::RuleMany => "a 129th rule",
            Refusal::RuleForm => {
                "not five fields parted by one blank each and ended by byte 10, a kind or lay unknown, `-` where a number belongs or the reverse, or a number not of one to five digits"
            }
            Refusal::RuleRange => "a number above 63",
            Refusal::RuleLay => "a lay that the kind does not allow",
            Refusal::RuleReversed => "an A rule whose second terminal is below its first",
            Refusal::RuleTwice => {
                "an earlier rule has the same left, kind, first and second, under any lay; for an A rule: an earlier A rule of the same left shares a terminal"
            }
            Refusal::ClauseForm => {
                "not a number of 0 to 63, a blank and an expression as docs/FORMAT.md has it, ended by byte 10, depth aside"
            }
            Refusal::ClauseDeep => "groups nested deeper than sixteen levels",
            Refusal::ClauseMany => "the expansion has a nonterminal past 63 or more than 128 rules",
            Refusal::NoStart => "no rule has left 0",
            Refusal::TokenNames => {
                "the names are neither `term line col` nor `term line col width` (of a range sheet not `term line low high`), ended by byte 10"
            }
            Refusal::TokenMany => "a 65th token",
            Refusal::TokenForm => {
                "not three numbers (with `width`, and in a range sheet, four) parted by one blank each and ended by byte 10, or a number not of one to five digits"
            }
            Refusal::TokenRange => {
                "a terminal above 63, or a line, column or end of a column that is 0 or above 65,535"
            }
            Refusal::TokenWidth => {
                "a width that is 0 or above 255, or column plus width above 65,536"
            }
            Refusal::TokenOrder => {
                "not after the token before: an earlier line, or the same line and a column before that token's column plus width"
            }
            Refusal::RangeEnds => "the upper end of the column is below the lower one",
            Refusal::ManyChoices => {
                "the ends allow more than 65,536 choices of columns, rising or not"
            }
            Refusal::Rights => {
                "the names are not `user low high may`, or a line is not three numbers of one to five digits and `see` or `change`, parted by one blank each and ended by byte 10; a user above 15; a range above 63 or reversed"
            }
            Refusal::NoRight => "the user may not change that rule, or there is no such rule",
            Refusal::BadBound => "the bound, or the length of a share, is not 1 to 7",
            Refusal::ManyCandidates => {
                "the sweep is too large: `T^k * 3^(k-1) * k^k` is above 4,294,967,296"
            }
            Refusal::BadRacks => "the number of racks is not 1 to 64",
            Refusal::BadShare => "the share is not below the number of racks",
            Refusal::FewWords => {
                "fewer words are lent than the span sheet needs (for a sweep or a share: with as many tokens as the bound or the length; for the test at every length: than 73,728)"
            }
            Refusal::FewRows => {
                "a tree of the answer has more rows than its memory has whole places of four bytes (`check` lends 4,096), or a list does not fit into the bytes lent for it"
            }
        }
    }
}
// end of what scripts/refusals.py makes

impl Refusal {
    /// The refusal's number: `refused-3` is 3.
    #[must_use]
    pub const fn number(self) -> u8 {
        self as u8
    }

    /// The refusal of a number, if a call can answer it.
    #[must_use]
    pub fn numbered(number: u8) -> Option<Refusal> {
        Refusal::ALL.into_iter().find(|refusal| refusal.number() == number)
    }
}

impl fmt::Display for Refusal {
    fn fmt(&self, f: &mut fmt::Formatter<'_>) -> fmt::Result {
        write!(f, "refused-{}", self.number())
    }
}

/// A refused call: why, and in which line. This is the error of a reply's `result`.
#[derive(Clone, Copy, Debug, PartialEq, Eq, Hash)]
pub struct Refused {
    /// Why.
    pub refusal: Refusal,
    /// The number of the refused line in its sheet, counted from 1; 0 where it is about no one
    /// line. A line past `u32::MAX` counts as that.
    pub line: u32,
}

impl fmt::Display for Refused {
    fn fmt(&self, f: &mut fmt::Formatter<'_>) -> fmt::Result {
        let Refused { refusal, line } = self;
        match line {
            0 => write!(f, "{refusal}: {}", refusal.meaning()),
            _ => write!(f, "{refusal} in line {line}: {}", refusal.meaning()),
        }
    }
}

impl std::error::Error for Refused {}

#[cfg(test)]
mod tests {
    use super::*;

    #[test]
    fn numbers_are_told_apart() {
        for refusal in Refusal::ALL {
            assert_eq!(Refusal::numbered(refusal.number()), Some(refusal));
        }
        assert_eq!(Refusal::numbered(44), Some(Refusal::RuleReversed));
        assert_eq!([0, 9, 31, 32, 99].map(Refusal::numbered), [None; 5]);
    }

    #[test]
    fn words() {
        let line = Refused { refusal: Refusal::RuleRange, line: 2 };
        assert_eq!(line.to_string(), "refused-3 in line 2: a number above 63");
        let sheet = Refused { refusal: Refusal::NoStart, line: 0 };
        assert_eq!(sheet.to_string(), "refused-7: no rule has left 0");
        assert!(Refusal::ALL.iter().all(|refusal| !refusal.meaning().contains("  ")));
    }
}
