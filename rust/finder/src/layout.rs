//! Lines and columns without numbers.
//!
//! No mark asks more than which of two columns is the greater, and which tokens begin a line. So
//! the layout of n tokens is a total order of their columns, with ties, and a flag for each token.

use std::collections::HashMap;

use crate::formula::{Formula, Literal};
use crate::limits::{Limits, Stop};
use crate::rule::Mark;

/// The literals of all layouts of so many tokens.
pub struct Layout {
    tokens: usize,
    /// By two tokens: the first one's column is at most the second one's.
    at_most: Vec<Literal>,
    /// By token: it begins a line.
    begins: Vec<Literal>,
    /// By mark and two tokens: the mark holds of the word from the one to the other, or of the two
    /// words that begin with them.
    made: HashMap<(Mark, usize, usize), Literal>,
}

impl Layout {
    /// Where no rule has a mark the tokens stand on one line, and nothing is left to find.
    pub fn plain(tokens: usize) -> Layout {
        let known = |holds| if holds { Literal::TRUE } else { Literal::FALSE };
        let pairs = (0..tokens).flat_map(|a| (0..tokens).map(move |b| a <= b));
        let begins = (0..tokens).map(|token| known(token == 0)).collect();
        Layout { tokens, at_most: pairs.map(known).collect(), begins, made: HashMap::new() }
    }

    /// All layouts: the columns in any order, and a greater column wherever no line begins.
    pub fn any(tokens: usize, formula: &mut Formula, limits: &Limits) -> Result<Layout, Stop> {
        let mut layout = Layout::plain(tokens);
        for a in 0..tokens {
            for b in (0..tokens).filter(|&b| b != a) {
                layout.at_most[a * tokens + b] = formula.variable(a < b);
            }
        }
        for token in 1..tokens {
            layout.begins[token] = formula.variable(false);
            let greater = !layout.at_most(token, token - 1);
            formula.clause(&[layout.begins[token], greater]);
        }
        for a in 0..tokens {
            limits.look()?;
            layout.order(a, formula);
        }
        Ok(layout)
    }

    /// Of two columns one is at most the other, and what is between two is in order with both.
    fn order(&self, a: usize, formula: &mut Formula) {
        for b in (0..self.tokens).filter(|&b| b != a) {
            if a < b {
                formula.clause(&[self.at_most(a, b), self.at_most(b, a)]);
            }
            for c in (0..self.tokens).filter(|&c| c != a && c != b) {
                let over = [!self.at_most(a, b), !self.at_most(b, c), self.at_most(a, c)];
                formula.clause(&over);
            }
        }
    }

    /// The column of `a` is at most that of `b`.
    pub fn at_most(&self, a: usize, b: usize) -> Literal {
        self.at_most[a * self.tokens + b]
    }

    /// The token begins a line; the first one does.
    pub fn begins(&self, token: usize) -> Literal {
        self.begins[token]
    }

    /// The mark of a U rule, over the word from token `first` to token `last`.
    pub fn of_word(
        &mut self,
        mark: Mark,
        first: usize,
        last: usize,
        formula: &mut Formula,
    ) -> Literal {
        if mark == Mark::None || first == last {
            return Literal::TRUE;
        }
        if let Some(&made) = self.made.get(&(mark, first, last)) {
            return made;
        }
        // a word's mark holds if it holds without the last token, and of the last token
        let shorter = self.of_word(mark, first, last - 1, formula);
        let literal = if mark == Mark::Single {
            formula.all(&[shorter, !self.begins(last)])
        } else {
            let same_line = self.of_word(Mark::Single, first, last, formula);
            let placed = match mark {
                Mark::Offside => !self.at_most(last, first),
                _ => self.at_most(first, last),
            };
            let holds = formula.variable(false);
            formula.implies(holds, &[shorter]);
            formula.implies(holds, &[same_line, placed]);
            holds
        };
        self.made.insert((mark, first, last), literal);
        literal
    }

    /// The mark of a B rule, over two words that begin with these tokens and follow one another.
    pub fn of_parts(
        &mut self,
        mark: Mark,
        first: usize,
        second: usize,
        formula: &mut Formula,
    ) -> Literal {
        let asked = match mark {
            Mark::Align => [self.at_most(first, second), self.at_most(second, first)],
            Mark::Indent => [self.begins(second), !self.at_most(second, first)],
            _ => return Literal::TRUE,
        };
        *self.made.entry((mark, first, second)).or_insert_with(|| formula.all(&asked))
    }
}

#[cfg(test)]
mod tests {
    use super::*;
    use crate::search::{learning::Learning, Model, Search};
    use std::time::Duration;

    const TOKENS: usize = 3;

    fn limits() -> Limits {
        Limits::new(Duration::from_secs(3600), usize::MAX)
    }

    /// Lines and columns of three tokens, as far as marks can tell: every order of the columns.
    fn places() -> Vec<[(usize, usize); TOKENS]> {
        let mut all = Vec::new();
        for code in 0..27 * 4 {
            let columns = [code % 3, code / 3 % 3, code / 9 % 3];
            let lines = [0, code / 27 % 2, code / 27 % 2 + code / 54];
            let at = |token: usize| (lines[token], columns[token]);
            let places = [at(0), at(1), at(2)];
            if places.windows(2).all(|two| two[0] < two[1]) {
                all.push(places);
            }
        }
        all
    }

    /// Does the mark hold there, by what it says of lines and columns?
    fn holds(mark: Mark, first: usize, other: usize, places: &[(usize, usize)]) -> bool {
        let (line, column) = places[first];
        let word = |each: fn(usize, usize) -> bool| {
            places[first..=other].iter().all(|&(l, c)| l == line || each(c, column))
        };
        match mark {
            Mark::None => true,
            Mark::Offside => word(|c, first| c > first),
            Mark::Offalign => word(|c, first| c >= first),
            Mark::Single => word(|_, _| false),
            Mark::Align => places[other].1 == column,
            Mark::Indent => places[other].1 > column && places[other].0 > places[other - 1].0,
        }
    }

    /// A model in which the tokens stand so and the literal is true.
    fn found(mark: Mark, first: usize, other: usize, places: &[(usize, usize)]) -> Option<Model> {
        let mut formula = Formula::new();
        let mut layout = Layout::any(TOKENS, &mut formula, &limits()).unwrap();
        let literal = match mark {
            Mark::Align | Mark::Indent => layout.of_parts(mark, first, other, &mut formula),
            _ => layout.of_word(mark, first, other, &mut formula),
        };
        formula.clause(&[literal]);
        for a in 0..TOKENS {
            for b in 0..TOKENS {
                let at_most = places[a].1 <= places[b].1;
                let literal = layout.at_most(a, b);
                formula.clause(&[if at_most { literal } else { !literal }]);
            }
            let begins = a == 0 || places[a].0 > places[a - 1].0;
            formula.clause(&[if begins { layout.begins(a) } else { !layout.begins(a) }]);
        }
        Learning::new(formula, &limits()).unwrap().solve(&[], &mut limits()).unwrap()
    }

    #[test]
    fn marks_are_what_lines_and_columns_say() {
        use Mark::{Align, Indent, None, Offalign, Offside, Single};
        let pairs = [(0, 1), (0, 2), (1, 2)];
        for mark in [None, Offside, Offalign, Single, Align, Indent] {
            for (first, other) in pairs {
                for places in places() {
                    let holds = holds(mark, first, other, &places);
                    let found = found(mark, first, other, &places).is_some();
                    assert_eq!(found, holds, "{mark:?} {first} {other} {places:?}");
                }
            }
        }
    }

    #[test]
    fn building_ends_with_the_time() {
        let over = Limits::new(Duration::ZERO, usize::MAX);
        assert_eq!(Layout::any(8, &mut Formula::new(), &over).err(), Some(Stop::Time));
    }
}
