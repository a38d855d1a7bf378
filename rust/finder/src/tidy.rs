//! A found sentence made easy to read: fewer lines, and lines that begin under others.

use teplonga::Token;

use crate::formula::Literal;
use crate::layout::Layout;
use crate::limits::{Limits, Stop};
use crate::patch::Patch;
use crate::search::{Model, Search};

/// The conflicts that wishes may take in all.
const CONFLICTS: u64 = 20_000;

/// Wishes are asked one after the other: what can be had is settled, and stays so.
pub struct Tidy<'a> {
    search: &'a mut dyn Search,
    layout: &'a Layout,
    limits: Limits,
    /// What is settled, the terminals first.
    settled: Vec<Literal>,
    /// A model in which all that is settled is true.
    model: Model,
}

impl<'a> Tidy<'a> {
    /// Begins with a model, and these literals of it settled.
    pub fn new(
        search: &'a mut dyn Search,
        layout: &'a Layout,
        limits: &Limits,
        (settled, model): (Vec<Literal>, Model),
    ) -> Tidy<'a> {
        Tidy { search, layout, limits: limits.with_conflicts(CONFLICTS), settled, model }
    }

    /// The last model, once all wishes are asked or a limit is met.
    pub fn model(mut self, tokens: usize) -> Model {
        // a wish that was not answered is none that was settled
        let _ = self.lines(tokens).and_then(|()| self.starts(tokens));
        self.model
    }

    /// As few lines as can be had, from the first token on.
    fn lines(&mut self, tokens: usize) -> Result<(), Stop> {
        for token in 1..tokens {
            self.prefer(!self.layout.begins(token))?;
        }
        Ok(())
    }

    /// Each line begins under an earlier one's first token, else under another earlier token, the
    /// nearest first; where that cannot be, to the right of as many earlier ones as can be had.
    fn starts(&mut self, tokens: usize) -> Result<(), Stop> {
        let begins = |token: &usize| self.model.holds(self.layout.begins(*token));
        let (first, inner): (Vec<usize>, Vec<usize>) = (0..tokens).partition(begins);
        for (place, &token) in first.iter().enumerate().skip(1) {
            let earlier = inner.iter().rev().filter(|&&other| other < token);
            let mut under = first[..place].iter().rev().chain(earlier);
            let found = under.try_fold(false, |found, &other| {
                Ok(found || self.wish(&self.aligned(token, other))?)
            })?;
            if !found {
                for &other in &first[..place] {
                    self.prefer(!self.layout.at_most(token, other))?;
                }
            }
        }
        Ok(())
    }

    fn aligned(&self, a: usize, b: usize) -> [Literal; 2] {
        [self.layout.at_most(a, b), self.layout.at_most(b, a)]
    }

    /// Settles the literal, or else its opposite.
    fn prefer(&mut self, literal: Literal) -> Result<(), Stop> {
        if !self.wish(&[literal])? {
            self.settled.push(!literal);
        }
        Ok(())
    }

    /// Settles these where they can be had besides what is settled.
    fn wish(&mut self, literals: &[Literal]) -> Result<bool, Stop> {
        let before = self.settled.len();
        self.settled.extend_from_slice(literals);
        if literals.iter().all(|&literal| self.model.holds(literal)) {
            return Ok(true);
        }
        match self.search.solve(&self.settled, &mut self.limits)? {
            Some(model) => self.model = model,
            None => self.settled.truncate(before),
        }
        Ok(self.settled.len() > before)
    }
}

/// Closes gaps between columns as far as the verdict stays two and the time allows.
pub fn close_up(mut patch: Patch, rules: &[u8], limits: &Limits) -> Patch {
    for token in 1..patch.0.len() {
        patch = better(patch, |tokens| close_gap(tokens, token), rules, limits);
    }
    let widest = patch.0.iter().map(|token| token.column.0).max().unwrap_or(0);
    for column in (1..widest).rev() {
        patch = better(patch, |tokens| drop_column(tokens, column), rules, limits);
    }
    patch
}

/// The changed patch where it differs, rises and has two trees, else the patch itself.
fn better(patch: Patch, change: impl Fn(&mut [Token]), rules: &[u8], limits: &Limits) -> Patch {
    let mut changed = patch.clone();
    change(&mut changed.0);
    let place = |token: &Token| (token.line, token.column);
    let rises = changed.0.windows(2).all(|two| place(&two[0]) < place(&two[1]));
    let good = changed != patch && rises && limits.look().is_ok() && changed.is_two(rules);
    if good {
        changed
    } else {
        patch
    }
}

/// Moves a token and what follows it on its line up to the token before it on that line.
fn close_gap(tokens: &mut [Token], token: usize) {
    let (before, line) = (tokens[token - 1], tokens[token].line);
    if before.line == line {
        let gap = tokens[token].column.0 - before.column.0 - 1;
        let rest = tokens[token..].iter_mut().take_while(|it| it.line == line);
        rest.for_each(|it| it.column.0 -= gap);
    }
}

/// Moves all that is past a column by one to the left.
fn drop_column(tokens: &mut [Token], column: u16) {
    let past = tokens.iter_mut().filter(|it| it.column.0 > column);
    past.for_each(|it| it.column.0 -= 1);
}

#[cfg(test)]
mod tests {
    use super::*;
    use crate::formula::Formula;
    use crate::search::learning::Learning;
    use std::time::Duration;
    use teplonga::{Column, Line};

    const TOKENS: usize = 4;

    fn limits(seconds: u64) -> Limits {
        Limits::new(Duration::from_secs(seconds), usize::MAX)
    }

    fn places(patch: &Patch) -> Vec<(u16, u16)> {
        patch.0.iter().map(|token| (token.line.0, token.column.0)).collect()
    }

    fn patch(places: &[(u16, u16)]) -> Patch {
        let token =
            |&(line, column)| Token { terminal: 0, line: Line(line), column: Column(column) };
        Patch(places.iter().map(token).collect())
    }

    /// Four tokens of which the last is to be left of the third, tidied in so many seconds.
    fn tidied(seconds: u64) -> Patch {
        let mut formula = Formula::new();
        let layout = Layout::any(TOKENS, &mut formula, &limits(3600)).unwrap();
        formula.clause(&[!layout.at_most(2, 3)]);
        // all lines begin until tidying asks for fewer
        formula.likely.iter_mut().for_each(|likely| *likely = true);
        let mut search = Learning::new(formula, &limits(3600)).unwrap();
        let model = search.solve(&[], &mut limits(3600)).unwrap().unwrap();
        let tidy = Tidy::new(&mut search, &layout, &limits(seconds), (Vec::new(), model));
        Patch::of(&tidy.model(TOKENS), &layout, &[0; TOKENS])
    }

    #[test]
    fn lines_are_few_and_begin_under_others() {
        assert_eq!(places(&tidied(3600)), [(1, 1), (1, 2), (1, 3), (2, 1)]);
        let untidied = places(&tidied(0));
        assert_eq!(untidied.iter().map(|place| place.0).collect::<Vec<_>>(), [1, 2, 3, 4]);
    }

    #[test]
    fn gaps_are_closed_as_far_as_the_verdict_stays() {
        let rules = b"left kind first second lay\n0 B 0 0 none\n0 A 0 - none\n";
        let wide = patch(&[(1, 2), (1, 5), (2, 9), (2, 12)]);
        assert_eq!(
            places(&close_up(wide.clone(), rules, &limits(3600))),
            [(1, 1), (1, 2), (2, 2), (2, 3)]
        );
        assert_eq!(close_up(wide.clone(), rules, &limits(0)), wide);
        let aligned = b"left kind first second lay\n0 B 0 0 align\n0 A 0 - none\n";
        let column = patch(&[(1, 3), (2, 3), (3, 3)]);
        assert_eq!(places(&close_up(column, aligned, &limits(3600))), [(1, 1), (2, 1), (3, 1)]);
    }
}
