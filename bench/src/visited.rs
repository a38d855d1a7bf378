//! Rule sheets and tokens of which every choice of columns must be visited: what
//! may hold and what must hold leave a verdict open to the last token.

use crate::random::{rule_sheet, Random};
use crate::twin::columns::Ranged;
use crate::twin::grammar::{Column, Line, Token, Width};

/// How many tokens there are, and how many of them have two columns.
pub type Size = (usize, usize);

pub struct Family {
    pub name: &'static str,
    pub what: &'static str,
    pub rules: Vec<u8>,
    pub ranges: fn(Size) -> Vec<Ranged>,
}

/// Under 128 rules. The last three were found by changing lines of the others
/// while a search took longer.
pub fn large() -> Vec<Family> {
    let climbed = "changed line by line for the longest search";
    vec![
        Family {
            name: "parity",
            what: "how many tokens are aligned with the one before, odd or even, beside sums",
            rules: parity(5),
            ranges: in_pairs,
        },
        Family {
            name: "parity chains",
            what: "odd or even under two chains of U rules whose links stand in B rules",
            rules: parity_chains(29),
            ranges: in_pairs,
        },
        Family {
            name: "states",
            what: "a reader from the left whose next state goes by align or indent",
            rules: states(42),
            ranges: below_the_first,
        },
        Family {
            name: "marked dense",
            what: "dense B rules under align and indent over U rules under marks",
            rules: marked_dense(5, 128),
            ranges: in_steps,
        },
        Family {
            name: "climbed parity chains",
            what: climbed,
            rules: include_bytes!("../sheets/columns/climbed-parity-chains.rules").to_vec(),
            ranges: in_pairs,
        },
        Family {
            name: "climbed states",
            what: climbed,
            rules: include_bytes!("../sheets/columns/climbed-states.rules").to_vec(),
            ranges: below_the_first,
        },
        Family {
            name: "climbed ladder",
            what: climbed,
            rules: include_bytes!("../sheets/columns/climbed-ladder.rules").to_vec(),
            ranges: in_steps,
        },
    ]
}

/// Under 20 rules.
pub fn usual() -> Vec<Family> {
    vec![
        Family {
            name: "states",
            what: "the reader of states",
            rules: states(6),
            ranges: below_the_first,
        },
        Family {
            name: "marked dense",
            what: "dense B rules under marks",
            rules: marked_dense(2, 20),
            ranges: in_steps,
        },
    ]
}

/// Odd or even, with a sum modulo m besides: a token below another (62 and 63)
/// is aligned with it or indented.
fn parity(m: usize) -> Vec<u8> {
    let mut lines: Vec<String> = (0..m).map(|x| format!("{x} A 0 - none")).collect();
    lines.extend(["62 A 1 - none".to_string(), "63 A 2 - none".to_string()]);
    for x in 0..m {
        lines.push(format!("{x} B 62 63 align"));
        lines.push(format!("{} B 62 63 indent", x + m));
    }
    for i in 0..4 * m * m {
        let (p, q, x, y) = (i & 1, i >> 1 & 1, i / 4 % m, i / 4 / m);
        lines.push(format!("{} B {} {} none", (x + y) % m + m * (p ^ q), x + m * p, y + m * q));
    }
    rule_sheet(&lines)
}

/// Odd or even, each under a chain of so many U rules.
fn parity_chains(links: usize) -> Vec<u8> {
    let head = [
        "0 A 0 - none",
        "62 A 1 - none",
        "63 A 2 - none",
        "0 B 62 63 align",
        "1 B 62 63 indent",
        "0 B 0 0 none",
        "0 B 1 1 none",
        "1 B 0 1 none",
        "1 B 1 0 none",
    ];
    let mut lines = head.map(str::to_string).to_vec();
    lines.extend((0..2 * links).map(|k| format!("{} U {k} - none", k + 2)));
    let all = 2 * links + 2;
    for k in 0.. {
        let (b, d) = (k % all, (k + 1 + k / all) % all);
        let line = format!("{} B {b} {d} none", (b ^ d) & 1);
        if lines.len() == 128 {
            break;
        }
        if !lines.contains(&line) {
            lines.push(line);
        }
    }
    rule_sheet(&lines)
}

/// A token after m states leads to one of two next ones, as it is aligned with
/// the first token or indented. Any state is accepted.
fn states(m: usize) -> Vec<u8> {
    let tokens = ["0 A 0 - none", "62 A 0 - none", "63 A 0 - none"];
    let mut lines = tokens.map(str::to_string).to_vec();
    for s in 0..m {
        lines.push(format!("{} B {s} 63 align", 2 * s % m));
        lines.push(format!("{} B {s} 62 indent", (2 * s + 1) % m));
    }
    lines.extend((1..m).map(|s| format!("0 U {s} - none")));
    rule_sheet(&lines)
}

/// B rules over m nonterminals, and over U rules of these under marks.
fn marked_dense(m: usize, rules: usize) -> Vec<u8> {
    let mut random = Random::new(2);
    let mut lines: Vec<String> = (0..m).map(|left| format!("{left} A 0 - none")).collect();
    for left in 0..m {
        let lay = random.pick(&["offside", "offalign", "none"]);
        lines.push(format!("{} U {left} - {lay}", left + m));
    }
    for i in 0..m * m * m {
        let second = i / m / m + if random.below(2) == 0 { m } else { 0 };
        let lay = random.pick(&["align", "indent"]);
        lines.push(format!("{} B {} {second} {lay}", i % m, i / m % m));
    }
    lines.truncate(rules);
    rule_sheet(&lines)
}

/// A token on the line of that number, in its lowest of so many columns.
fn token(terminal: u8, line: usize, column: usize, columns: u16) -> Ranged {
    let (line, column) = (Line(line as u16 + 1), Column(column as u16));
    (Token { terminal, line, column, width: Width(1) }, columns)
}

/// Is the token one of the so many in the middle?
fn middle(i: usize, (tokens, uncertain): Size) -> bool {
    let from = (tokens - uncertain) / 2;
    (from..from + uncertain).contains(&i)
}

/// Tokens on lines of their own in column 1, those in the middle perhaps in 2.
fn below_the_first(size: Size) -> Vec<Ranged> {
    (0..size.0).map(|i| token(0, i, 1, 1 + u16::from(middle(i, size)))).collect()
}

/// The same in columns that go up and back after three.
fn in_steps(size: Size) -> Vec<Ranged> {
    (0..size.0).map(|i| token(0, i, 1 + i % 3, 1 + u16::from(middle(i, size)))).collect()
}

/// Pairs of tokens in the middle, the second of a pair in column 1 or 2; plain
/// tokens before and behind them.
fn in_pairs((tokens, uncertain): Size) -> Vec<Ranged> {
    let from = (tokens - 2 * uncertain) / 2;
    let pair = |i: usize| {
        if !middle(i, (tokens, 2 * uncertain)) {
            token(0, i, 1, 1)
        } else if (i - from) % 2 == 0 {
            token(1, i, 1, 1)
        } else {
            token(2, i, 1, 2)
        }
    };
    (0..tokens).map(pair).collect()
}
