//! Which lengths the start can have, and how many candidates a sweep tries.

use super::grammar::{Clause, Rule, Token};

/// All lengths from 0 to 7.
pub const ALL: u8 = u8::MAX;

/// The lengths 0 to 7 that the start can have when all marks are ignored, as
/// the bits of a number.
pub fn start_lengths(rules: &[Rule]) -> u8 {
    let mut known = [0u8; 64];
    loop {
        let before = known;
        for rule in rules {
            known[usize::from(rule.left)] |= given(&rule.clause, &known);
        }
        if known == before {
            return known[0];
        }
    }
}

/// The lengths that a clause gives, by those of its nonterminals.
fn given(clause: &Clause, known: &[u8; 64]) -> u8 {
    match *clause {
        Clause::Empty => 1,
        Clause::Atom(..) => 2,
        Clause::Unary(b, _) => known[usize::from(b)],
        Clause::Binary(b, d, _) => {
            let (first, second) = (known[usize::from(b)], known[usize::from(d)]);
            (0..8).filter(|i| first >> i & 1 == 1).fold(0, |set, i| set | second << i)
        }
    }
}

/// How many candidates a sweep over these terminals and lengths tries: all of 1
/// to `bound` tokens, or those up to and with the found one.
pub fn tried(lengths: u8, terminals: u64, bound: usize, found: Option<&[Token]>) -> u64 {
    let t = u64::from(terminals.count_ones());
    let longest = found.map_or(bound, |tokens| tokens.len() - 1);
    let whole = (1..=longest).filter(|n| lengths >> n & 1 == 1).map(|n| of_length(t, n)).sum();
    found.map_or(whole, |tokens| whole + before(t, terminals, tokens) + 1)
}

/// The ways to go on with so many tokens of a candidate of `n`, by the column of
/// the token before them.
fn onward(t: u64, n: usize, left: usize) -> [u64; 8] {
    (0..left).fold([1; 8], |ways, _| {
        let mut more = [0; 8];
        for (p, place) in more.iter_mut().enumerate().take(n + 1) {
            *place = t * (sum(&ways, p, n) + 2 * sum(&ways, 0, n));
        }
        more
    })
}

/// The sum over the columns after `a` up to `b`.
fn sum(ways: &[u64; 8], a: usize, b: usize) -> u64 {
    ways[a + 1..=b].iter().sum()
}

/// All candidates of a length.
fn of_length(t: u64, n: usize) -> u64 {
    t * sum(&onward(t, n, n - 1), 0, n)
}

/// The candidates of its length that come before a candidate.
fn before(t: u64, terminals: u64, tokens: &[Token]) -> u64 {
    let n = tokens.len();
    let (mut total, mut line, mut p) = (0, 1, 0);
    for (i, token) in tokens.iter().enumerate() {
        let ways = onward(t, n, n - 1 - i);
        let steps = if i == 0 { 0 } else { 2 };
        let column = usize::from(token.column.0);
        let each = sum(&ways, p, n) + steps * sum(&ways, 0, n);
        let lesser = match u64::from(token.line.0 - line) {
            0 => sum(&ways, p, column - 1),
            step => sum(&ways, p, n) + (step - 1) * sum(&ways, 0, n) + sum(&ways, 0, column - 1),
        };
        let below = terminals & ((1 << token.terminal) - 1);
        total += u64::from(below.count_ones()) * each + lesser;
        (line, p) = (token.line.0, column);
    }
    total
}
