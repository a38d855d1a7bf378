//! Calls on random sheets, sound and damaged, and on sheets at the limits.

use bench::families::sentence;
use bench::random::{rule_line, rule_sheet, token_lines, token_sheet, Random};
use bench::twin;

/// A call with its sheets and the number of lent words.
pub enum Case {
    Verdict(Vec<u8>, Vec<u8>, usize),
    Sweep(Vec<u8>, u64, usize),
}

/// What each lent word holds before a call.
pub const LENT: u64 = 7;

/// The case's sheets as text, for a message.
pub fn shown(case: &Case) -> String {
    let text = |sheet: &[u8]| String::from_utf8_lossy(sheet).into_owned();
    match case {
        Case::Verdict(rules, tokens, lent) => {
            format!("{lent} words\n{}\n{}", text(rules), text(tokens))
        }
        Case::Sweep(rules, bound, lent) => format!("{lent} words, k = {bound}\n{}", text(rules)),
    }
}

/// All cases, those of the paper's sheets first.
pub fn cases() -> Vec<Case> {
    let mut random = Random::new(1);
    let mut cases = sheets_of_the_paper();
    cases.extend(sentences(&mut random));
    cases.extend(refused(&mut random));
    cases.extend(sizes());
    cases.extend(sweeps(&mut random));
    cases
}

/// The paper's sheets.
pub const PAPER: [&str; 5] = ["block", "block-repaired", "yaml", "fsharp", "haskell"];

/// Random rules, with a terminal for most nonterminals, so that much is derived.
fn random_rules(random: &mut Random, nonterminals: u64, terminals: u64) -> Vec<u8> {
    let mut lines = Vec::new();
    for left in 0..nonterminals {
        if random.below(3) > 0 {
            lines.push(format!("{left} A {} - none", random.below(terminals)));
        }
    }
    for _ in 0..1 + random.below(8) {
        lines.push(rule_line(random, nonterminals, terminals));
    }
    rule_sheet(&lines)
}

/// The next random sheet that is accepted.
fn accepted_rules(random: &mut Random, terminals: u64) -> Vec<u8> {
    loop {
        let nonterminals = 2 + random.below(3);
        let rules = random_rules(random, nonterminals, terminals);
        if twin::sheets::read_rules(&rules).is_ok() {
            return rules;
        }
    }
}

/// The sheet with a byte changed, put in or taken out, or with another lay.
fn damaged(random: &mut Random, mut sheet: Vec<u8>) -> Vec<u8> {
    let byte = random.pick(b"0123456789 -EAUB\nnx");
    let at = random.below(sheet.len() as u64) as usize;
    match random.below(4) {
        0 => sheet[at] = byte,
        1 => sheet.insert(at, byte),
        2 => {
            sheet.remove(at);
        }
        _ => {
            let lay = random.pick(&["align", "offside", "single", "left"]);
            let text = String::from_utf8(sheet).expect("plain text");
            sheet = text.replacen("none", lay, 1).into_bytes();
        }
    }
    sheet
}

/// Accepted sheets with a sentence of up to six tokens.
fn sentences(random: &mut Random) -> Vec<Case> {
    let mut cases = Vec::new();
    for i in 0..500 {
        let terminals = 1 + i % 2;
        let rules = accepted_rules(random, terminals);
        let count = random.below(7);
        let tokens = token_sheet(&token_lines(random, count, terminals));
        cases.push(Case::Verdict(rules, tokens, 60));
    }
    cases
}

/// Sheets most of which are refused, and sometimes too few words.
fn refused(random: &mut Random) -> Vec<Case> {
    let mut cases = Vec::new();
    for i in 0..600 {
        let mut rules = random_rules(random, 4, 2);
        let mut tokens = token_sheet(&token_lines(random, 3, 2));
        match i % 3 {
            0 => rules = damaged(random, rules),
            1 => {
                rules = accepted_rules(random, 2);
                tokens = damaged(random, tokens);
            }
            _ => {}
        }
        let lent = random.pick(&[14, 14, 14, 13]);
        cases.push(Case::Verdict(rules, tokens, lent));
    }
    cases
}

/// A sheet in which a word of all tokens stands beside an empty one, on either
/// side, under each binary mark.
fn sided() -> Vec<u8> {
    let lines = [
        "0 B 1 2 align",
        "0 B 2 1 indent",
        "1 B 1 3 none",
        "1 E - - none",
        "2 B 3 1 indent",
        "2 E - - none",
        "3 A 0 - none",
    ];
    rule_sheet(&lines.map(str::to_string))
}

/// Sheets at the limits of their sizes, and past them.
fn sizes() -> Vec<Case> {
    let rules: Vec<String> = (0..129).map(|i| format!("{} A {} - none", i % 64, i / 64)).collect();
    let tokens: Vec<String> = (1..=65).map(|i| format!("0 {i} 1")).collect();
    let one = rule_sheet(&rules[..1]);
    let all: Vec<String> = (0..64).map(|t| format!("0 A {t} - none")).collect();
    let eight = &all[..8];
    let large = rule_sheet(&["0 A 64 - none".to_string()]);
    vec![
        Case::Verdict(rule_sheet(&rules), token_sheet(&[]), 2),
        Case::Verdict(rule_sheet(&rules[..128]), token_sheet(&[]), 2),
        Case::Verdict(one.clone(), token_sheet(&tokens), 9000),
        Case::Verdict(one.clone(), token_sheet(&tokens[..64]), 4162),
        Case::Verdict(one.clone(), token_sheet(&tokens[..64]), 4161),
        Case::Verdict(sided(), sentence(63, 1), 4034),
        Case::Verdict(sided(), sentence(64, 1), 4162),
        Case::Verdict(large, token_sheet(&[]), 2),
        Case::Verdict(Vec::new(), Vec::new(), 0),
        Case::Verdict(one.clone(), Vec::new(), 0),
        Case::Sweep(one.clone(), 0, 60),
        Case::Sweep(one.clone(), 8, 60),
        Case::Sweep(one.clone(), 3, 13),
        Case::Sweep(one, 3, 14),
        Case::Sweep(rule_sheet(eight), 5, 60),
        Case::Sweep(rule_sheet(&all), 7, 60),
        Case::Sweep(rule_sheet(&all), 4, 60),
    ]
}

fn sweeps(random: &mut Random) -> Vec<Case> {
    let mut cases = Vec::new();
    for i in 0..300 {
        let rules = accepted_rules(random, 1 + i % 2);
        cases.push(Case::Sweep(rules, 1 + i % 3, 20));
    }
    cases
}

fn sheets_of_the_paper() -> Vec<Case> {
    let mut cases = Vec::new();
    for name in PAPER {
        let path = format!("{}/sheets/{name}.rules", env!("CARGO_MANIFEST_DIR"));
        let rules = std::fs::read(path).expect("the sheet is there");
        let bound = if name.starts_with("block") { 3 } else { 2 };
        cases.push(Case::Sweep(rules, bound, 60));
    }
    cases
}
