//! The pairs of the empty word and of one token, by passes over the rules. No
//! mark can fail on them.

use super::grammar::{has, Clause, Rule};
use super::spans::Pair;

/// What is found so far: the nonterminals with a choice in this pass, and the
/// pair.
#[derive(Clone, Copy, Default)]
struct Tally {
    seen: u64,
    pair: Pair,
}

impl Tally {
    /// A choice stands; `again` says that a word below has two trees.
    fn choice(&mut self, left: u8, again: bool) {
        let bit = 1 << left;
        self.pair.two |= if again { bit } else { self.seen & bit };
        self.seen |= bit;
        self.pair.one |= bit;
    }

    /// A B rule of b and d stands if b has a tree over the first part and d one
    /// over the second.
    fn join(&mut self, left: u8, (b, first): (u8, Pair), (d, second): (u8, Pair)) {
        if has(first.one, b) && has(second.one, d) {
            self.choice(left, has(first.two, b) || has(second.two, d));
        }
    }

    /// Try a rule that has the whole word on one side. The other side of a B
    /// rule is empty: its pair is `empty`, or this one where the word itself is.
    fn whole(&mut self, rule: &Rule, empty: Option<Pair>) {
        match (rule.clause, empty) {
            (Clause::Empty | Clause::Atom(..), _) => {}
            (Clause::Unary(b, _), _) => {
                if has(self.pair.one, b) {
                    self.choice(rule.left, has(self.pair.two, b));
                }
            }
            (Clause::Binary(b, d, _), None) => {
                self.join(rule.left, (b, self.pair), (d, self.pair));
            }
            (Clause::Binary(b, d, _), Some(empty)) => {
                self.join(rule.left, (b, empty), (d, self.pair));
                self.join(rule.left, (b, self.pair), (d, empty));
            }
        }
    }
}

/// Passes over the rules, the last one first, until one adds nothing. A pass
/// reads what it has added itself.
fn saturated(inner: Tally, rules: &[Rule], empty: Option<Pair>) -> Pair {
    let mut pair = inner.pair;
    while pair.one != 0 {
        let mut tally = Tally { pair, ..inner };
        for rule in rules.iter().rev() {
            tally.whole(rule, empty);
        }
        if tally.pair == pair {
            break;
        }
        pair = tally.pair;
    }
    pair
}

/// The pair of the empty word.
pub fn empty_pair(rules: &[Rule]) -> Pair {
    let mut inner = Tally::default();
    for rule in rules.iter().filter(|rule| rule.clause == Clause::Empty) {
        inner.choice(rule.left, false);
    }
    saturated(inner, rules, None)
}

/// The pair of a token with this terminal, wherever it stands.
pub fn leaf_pair(rules: &[Rule], terminal: u8, empty: Pair) -> Pair {
    let mut inner = Tally::default();
    for rule in rules {
        match rule.clause {
            Clause::Atom(a, b) if (a..=b).contains(&terminal) => inner.choice(rule.left, false),
            _ => {}
        }
    }
    saturated(inner, rules, Some(empty))
}
