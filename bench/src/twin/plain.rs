//! The verdict as a good programmer would write it first: every rule at every
//! cut of every span, a rule left as soon as it has two trees.

use super::grammar::{has, Clause, Rule, Token};
use super::leaves::{empty_pair, leaf_pair};
use super::marks::{Half, Marks};
use super::spans::{place, Pair};

/// Fill the span sheet of a sentence.
pub fn fill(words: &mut [u64], rules: &[Rule], tokens: &[Token]) {
    let n = tokens.len();
    let sentence = Half { tokens, known: n };
    let empty = empty_pair(rules);
    empty.put(words, 0);
    for (i, token) in tokens.iter().enumerate() {
        leaf_pair(rules, token.terminal, empty).put(words, place(n, i, 1));
    }
    for len in 2..=n {
        for start in 0..=n - len {
            let marks = Marks::walked(&sentence, start, len);
            let pair = span(words, rules, n, (start, len), &marks);
            pair.put(words, place(n, start, len));
        }
    }
}

/// The pair of a span: passes over the rules until one adds nothing.
fn span(
    words: &[u64],
    rules: &[Rule],
    n: usize,
    (start, len): (usize, usize),
    marks: &Marks,
) -> Pair {
    let mut pair = Pair::default();
    loop {
        let mut next = pair;
        let mut counts = [0u8; 64];
        for rule in rules {
            let count = &mut counts[usize::from(rule.left)];
            *count = (*count + ways(words, rule, n, (start, len), marks, next)).min(2);
            next.one |= u64::from(*count > 0) << rule.left;
            next.two |= u64::from(*count > 1) << rule.left;
        }
        if next == pair {
            return pair;
        }
        pair = next;
    }
}

/// In how many ways, up to two, the rule stands over the span, whose pair so
/// far is `own`.
fn ways(
    words: &[u64],
    rule: &Rule,
    n: usize,
    (start, len): (usize, usize),
    marks: &Marks,
    own: Pair,
) -> u8 {
    let trees = |pair: Pair, a: u8| u8::from(has(pair.one, a)) + u8::from(has(pair.two, a));
    match rule.clause {
        Clause::Empty | Clause::Atom(..) => 0,
        Clause::Unary(b, mark) if marks.unary(mark) => trees(own, b),
        Clause::Unary(..) => 0,
        Clause::Binary(b, d, mark) => {
            let mut count = 0;
            for left in 0..=len {
                let inner = 0 < left && left < len;
                if inner && !marks.binary(mark, left) {
                    continue;
                }
                let part = |from: usize, size: usize| {
                    if size == len {
                        own
                    } else {
                        Pair::at(words, place(n, from, size))
                    }
                };
                let first = trees(part(start, left), b);
                if first > 0 {
                    count += first * trees(part(start + left, len - left), d);
                }
                if count > 1 {
                    return 2;
                }
            }
            count
        }
    }
}
