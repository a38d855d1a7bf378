//! Sheets of any size on which a verdict costs much in one way or another.

use crate::random::{rule_sheet, token_sheet, BINARY_LAYS, UNARY_LAYS};

/// Sheets of so many rules (16 to 128) or a few less, and how many terminals
/// their sentences use.
pub struct Family {
    pub name: &'static str,
    pub what: &'static str,
    pub terminals: usize,
    pub sheet: fn(usize) -> Vec<u8>,
}

pub const VERDICT: [Family; 11] = [
    Family {
        name: "dense",
        what: "B rules over a few nonterminals, all of them derivable",
        terminals: 1,
        sheet: dense,
    },
    Family {
        name: "residues",
        what: "B rules that add lengths: one nonterminal a span, one rule a split",
        terminals: 1,
        sheet: residues,
    },
    Family {
        name: "spread",
        what: "many nonterminals, each with an A and a B rule",
        terminals: 4,
        sheet: spread,
    },
    Family { name: "marks", what: "B and U rules under every mark", terminals: 1, sheet: marks },
    Family {
        name: "offside",
        what: "U rules under offside and offalign over any tokens, and a B rule",
        terminals: 1,
        sheet: offside,
    },
    Family {
        name: "chain, top first",
        what: "a chain of U rules over a dense bottom, the top first",
        terminals: 1,
        sheet: chain_top_first,
    },
    Family {
        name: "unary chain",
        what: "the same listed bottom first",
        terminals: 1,
        sheet: unary_chain,
    },
    Family {
        name: "zigzag chain",
        what: "the same listed in zigzag",
        terminals: 1,
        sheet: zigzag_chain,
    },
    Family {
        name: "binary chain",
        what: "a chain of B rules with the empty word on the right, bottom first",
        terminals: 1,
        sheet: binary_chain,
    },
    Family {
        name: "empty chain",
        what: "the same where every link has the empty word too, under B rules of any two links",
        terminals: 1,
        sheet: empty_chain,
    },
    Family {
        name: "looping",
        what: "the dense sheet with a rule that loops: trees go by least heights",
        terminals: 1,
        sheet: looping,
    },
];

/// The family of that name.
pub fn named(name: &str) -> &'static Family {
    VERDICT.iter().find(|family| family.name == name).expect("there is one")
}

/// All triples over `m` nonterminals, the left one running fastest.
fn triples(m: usize) -> impl Iterator<Item = (usize, usize, usize)> {
    (0..m * m * m).map(move |i| (i % m, i / m % m, i / m / m))
}

fn dense(rules: usize) -> Vec<u8> {
    let m = (2..).find(|m| m + m * m * m >= rules).expect("there is one");
    let atoms = (0..m).map(|left| format!("{left} A 0 - none"));
    let pairs = triples(m).map(|(left, first, second)| format!("{left} B {first} {second} none"));
    sheet(atoms.chain(pairs), rules)
}

/// The dense sheet, with a U rule from the start to itself in the place of its last.
fn looping(rules: usize) -> Vec<u8> {
    let mut rules = dense(rules - 1);
    rules.extend_from_slice(b"0 U 0 - none\n");
    rules
}

/// Nonterminal i derives the words whose length is i modulo m.
fn residues(rules: usize) -> Vec<u8> {
    let m = (2..).take_while(|m| m * m < rules).last().expect("there is one");
    let atom = std::iter::once("1 A 0 - none".to_string());
    let pairs = (0..m * m).map(|i| format!("{} B {} {} none", (i + i / m) % m, i % m, i / m));
    sheet(atom.chain(pairs), rules)
}

fn spread(rules: usize) -> Vec<u8> {
    let m = rules / 2;
    let atoms = (0..m).map(|left| format!("{left} A {} - none", left % 4));
    let pairs = (0..m).map(|left| {
        let (first, second) = ((7 * left + 1) % m, (11 * left + 3) % m);
        format!("{left} B {first} {second} none")
    });
    sheet(atoms.chain(pairs), rules)
}

fn marks(rules: usize) -> Vec<u8> {
    let m = (2..).find(|m| 2 * m + m * m * m >= rules).expect("there is one");
    let atoms = (0..m).map(|left| format!("{left} A 0 - none"));
    // Over each nonterminal one that stands where a unary mark holds.
    let ladder = (0..m).map(|left| {
        let lay = UNARY_LAYS[left % UNARY_LAYS.len()];
        format!("{} U {left} - {lay}", left + m)
    });
    let pairs = triples(m).enumerate().map(|(i, (left, first, second))| {
        let lay = BINARY_LAYS[(i / m + i) % BINARY_LAYS.len()];
        format!("{left} B {first} {} {lay}", second + m)
    });
    sheet(atoms.chain(ladder).chain(pairs), rules)
}

/// Nonterminal 1 has any tokens. Over it stand others, each by a U rule, and 0
/// by a U rule over each of them: offside and offalign by turns.
fn offside(rules: usize) -> Vec<u8> {
    let lay = |i: usize| ["offside", "offalign"][i % 2];
    let any = ["1 A 0 - none", "1 B 1 1 none"].map(str::to_string);
    let marked = (2..64)
        .flat_map(|i| [format!("{i} U 1 - {}", lay(i)), format!("0 U {i} - {}", lay(i / 2))]);
    sheet(any.into_iter().chain(marked), rules)
}

/// A chain 0, 1, .., bottom, its links in the order in which they are listed.
/// The rules past them are B rules of the bottom, which stand at every span.
fn chained(links: &[String], head: &[String], rules: usize) -> Vec<u8> {
    let bottom = links.len();
    let atom = std::iter::once(format!("{bottom} A 0 - none"));
    let pairs =
        (0..bottom * bottom).map(|i| format!("{bottom} B {} {} none", i % bottom, i / bottom));
    sheet(head.iter().chain(links).cloned().chain(atom).chain(pairs), rules)
}

/// Half of the rules are links, as far as there are nonterminals.
fn chain_length(rules: usize) -> usize {
    (rules / 2).min(62)
}

fn unary_links(lefts: impl Iterator<Item = usize>) -> Vec<String> {
    lefts.map(|left| format!("{left} U {} - none", left + 1)).collect()
}

fn chain_top_first(rules: usize) -> Vec<u8> {
    chained(&unary_links(0..chain_length(rules)), &[], rules)
}

fn unary_chain(rules: usize) -> Vec<u8> {
    chained(&unary_links((0..chain_length(rules)).rev()), &[], rules)
}

/// Every other link going down, then the others going up.
fn zigzag_chain(rules: usize) -> Vec<u8> {
    let lefts = 0..chain_length(rules);
    let down = lefts.clone().filter(|left| left % 2 == 0);
    let up = lefts.rev().filter(|left| left % 2 == 1);
    chained(&unary_links(down.chain(up)), &[], rules)
}

fn binary_chain(rules: usize) -> Vec<u8> {
    let empty = ["63 E - - none".to_string()];
    let lefts = (0..chain_length(rules)).rev();
    let links: Vec<String> = lefts.map(|left| format!("{left} B {} 63 none", left + 1)).collect();
    chained(&links, &empty, rules)
}

/// The chain 1, 2, .., bottom, and B rules of 0 over any two of its links. The
/// bottom has the empty word and a token before itself.
fn empty_chain(rules: usize) -> Vec<u8> {
    let bottom = chain_length(rules) - 1;
    let head = [
        "63 E - - none".to_string(),
        "62 A 0 - none".to_string(),
        format!("{bottom} E - - none"),
        format!("{bottom} B 62 {bottom} none"),
    ];
    let links = (1..bottom).rev().map(|left| format!("{left} B {} 63 none", left + 1));
    let pairs = (0..bottom * bottom)
        .map(|i| format!("0 B {} {} none", 1 + i % bottom, 1 + (i + i / bottom) % bottom));
    sheet(head.into_iter().chain(links).chain(pairs), rules)
}

fn sheet(lines: impl Iterator<Item = String>, rules: usize) -> Vec<u8> {
    let lines: Vec<String> = lines.take(rules).collect();
    rule_sheet(&lines)
}

/// A sentence of `n` tokens of terminal 0, each on a line of its own, in columns
/// that go up and back after eight.
pub fn lines(n: usize) -> Vec<u8> {
    let lines: Vec<String> = (0..n).map(|i| format!("0 {} {}", 1 + i, 1 + i % 8)).collect();
    token_sheet(&lines)
}

/// A sentence of `n` tokens over the terminals below `terminals`, four to a line,
/// each line one column further right than the one before, and back after four.
pub fn sentence(n: usize, terminals: usize) -> Vec<u8> {
    let lines: Vec<String> = (0..n)
        .map(|i| format!("{} {} {}", i % terminals, 1 + i / 4, 1 + i / 4 % 4 + 2 * (i % 4)))
        .collect();
    token_sheet(&lines)
}
