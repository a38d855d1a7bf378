//! A sentence with lines and columns.

use teplonga::{verdict, words_for, Answer, Column, Line, Token};

use crate::layout::Layout;
use crate::search::Model;

/// A patch that may have two trees; the proved verdict decides.
#[derive(Clone, Debug, PartialEq, Eq)]
pub struct Patch(pub Vec<Token>);

impl Patch {
    /// The patch of a model: a token's column is one past the number of columns left of it.
    pub fn of(model: &Model, layout: &Layout, terminals: &[usize]) -> Patch {
        let count = terminals.len();
        let is_left = |a: usize, b: usize| !model.holds(layout.at_most(b, a));
        // of the tokens in one column the first counts
        let counts = |a: usize| (0..a).all(|b| is_left(a, b) || is_left(b, a));
        let left_of = |it: usize| (0..count).filter(move |&a| is_left(a, it) && counts(a)).count();
        let mut line = 0;
        let mut tokens = Vec::new();
        for (token, &terminal) in terminals.iter().enumerate() {
            line += u16::from(model.holds(layout.begins(token)));
            let terminal = u8::try_from(terminal).expect("a terminal is below 64");
            let column = u16::try_from(1 + left_of(token)).expect("a column is at most 64");
            tokens.push(Token { terminal, line: Line(line), column: Column(column) });
        }
        Patch(tokens)
    }

    /// The token sheet.
    pub fn sheet(&self) -> String {
        let row = |it: &Token| format!("{} {} {}\n", it.terminal, it.line.0, it.column.0);
        let rows: String = self.0.iter().map(row).collect();
        format!("term line col\n{rows}")
    }

    /// Does the proved verdict say that it has two trees?
    pub fn is_two(&self, rules: &[u8]) -> bool {
        let mut words = vec![0; words_for(self.0.len())];
        verdict(rules, self.sheet().as_bytes(), &mut words).answer == Answer::Two
    }
}

#[cfg(test)]
mod tests {
    use super::*;

    #[test]
    fn tokens_without_marks_stand_on_one_line() {
        let patch = Patch::of(&Model::new(vec![true]), &Layout::plain(3), &[5, 0, 5]);
        assert_eq!(patch.sheet(), "term line col\n5 1 1\n0 1 2\n5 1 3\n");
    }

    #[test]
    fn the_verdict_decides() {
        let rules = b"left kind first second lay\n0 B 0 0 none\n0 A 0 - none\n";
        let row =
            |count| Patch::of(&Model::new(vec![true]), &Layout::plain(count), &vec![0; count]);
        assert_eq!([2, 3, 64].map(|count| row(count).is_two(rules)), [false, true, true]);
    }
}
