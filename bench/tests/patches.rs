//! P1 to P9 of the specification, on the twin and, where it is linked, on the library.

use bench::library::{self, FOUND};
use bench::random::{rule_sheet, token_sheet};
use bench::twin::{self, Verdict};

type Positions = &'static [(u16, u16)];

fn sheet(rules: &[&str]) -> Vec<u8> {
    let lines: Vec<String> = rules.iter().map(|rule| rule.to_string()).collect();
    rule_sheet(&lines)
}

/// The verdict on tokens of terminal 0 at these positions.
fn verdict(rules: &[&str], positions: Positions) -> Verdict {
    let lines: Vec<String> =
        positions.iter().map(|(line, column)| format!("0 {line} {column}")).collect();
    let (rules, tokens) = (sheet(rules), token_sheet(&lines));
    let mut words = [0; 60];
    let answer = twin::verdict(&rules, &tokens, &mut words);
    if let Some(code) = library::verdict(&rules, &tokens, &mut [0; 60]) {
        assert_eq!(code, twin::verdict_code(&answer));
    }
    answer.expect("accepted")
}

/// The positions of the first candidate with two trees.
fn sweep(rules: &[&str], bound: u64) -> Option<Vec<(u16, u16)>> {
    let rules = sheet(rules);
    let mut words = [0; 60];
    let answer = twin::sweep(&rules, bound, &mut words);
    let mut found = [0; FOUND];
    if let Some(code) = library::sweep(&rules, bound, &mut [0; 60], &mut found) {
        assert_eq!(code, twin::sweep_code(&answer));
        assert_eq!(found, twin::found_places(answer.as_ref().expect("accepted")));
    }
    let tokens = answer.expect("accepted").found?;
    Some(tokens.iter().map(|token| (token.line.0, token.column.0)).collect())
}

fn pairs(lay: &str) -> [String; 2] {
    [format!("0 B 0 0 {lay}"), "0 A 0 - none".to_string()]
}

fn sweep_of_pairs(lay: &str, bound: u64) -> Option<Vec<(u16, u16)>> {
    let [pair, atom] = pairs(lay);
    sweep(&[&pair, &atom], bound)
}

#[test]
fn p1_to_p3() {
    assert_eq!(sweep_of_pairs("none", 2), None);
    assert_eq!(sweep_of_pairs("none", 3), Some(vec![(1, 1), (1, 2), (1, 3)]));
    assert_eq!(sweep_of_pairs("align", 3), Some(vec![(1, 1), (2, 1), (3, 1)]));
    assert_eq!(sweep_of_pairs("indent", 3), Some(vec![(1, 1), (2, 2), (3, 3)]));
}

#[test]
fn p4_left_words_of_length_0() {
    let rules = ["0 B 1 1 none", "1 A 0 - none", "1 E - - none"];
    assert_eq!(verdict(&rules, &[(1, 1)]), Verdict::Two);
}

#[test]
fn p5_no_tokens() {
    let rules = ["0 B 1 2 none", "0 U 1 - none", "1 E - - none", "2 E - - none"];
    assert_eq!(verdict(&rules, &[]), Verdict::Two);
    for bound in 1..=7 {
        assert_eq!(sweep(&rules, bound), None);
    }
}

#[test]
fn p6_p7_offside() {
    let offside = ["0 U 1 - offside", "1 B 2 2 none", "2 A 0 - none"];
    assert_eq!(verdict(&offside, &[(1, 3), (2, 3)]), Verdict::None);
    assert_eq!(verdict(&offside, &[(1, 3), (2, 4)]), Verdict::One);
    let offalign = ["0 U 1 - offalign", "1 B 2 2 none", "2 A 0 - none"];
    assert_eq!(verdict(&offalign, &[(1, 3), (2, 3)]), Verdict::One);
    assert_eq!(verdict(&offalign, &[(1, 3), (2, 2)]), Verdict::None);
}

#[test]
fn p8_indent() {
    let rules = ["0 B 1 1 indent", "1 A 0 - none"];
    assert_eq!(verdict(&rules, &[(1, 1), (2, 2)]), Verdict::One);
    assert_eq!(verdict(&rules, &[(1, 1), (3, 2)]), Verdict::One);
    assert_eq!(verdict(&rules, &[(1, 1), (2, 1)]), Verdict::None);
}

#[test]
fn p9_two_trees_that_no_start_reaches() {
    let rules = [
        "0 U 1 - single",
        "1 U 2 - none",
        "1 U 3 - none",
        "2 B 4 4 indent",
        "3 B 4 4 none",
        "4 A 0 - none",
    ];
    assert_eq!(verdict(&rules, &[(1, 1), (2, 2)]), Verdict::None);
    // As the start, nonterminal 1 has two there.
    let inner = ["0 U 2 - none", "0 U 3 - none", rules[3], rules[4], rules[5]];
    assert_eq!(verdict(&inner, &[(1, 1), (2, 2)]), Verdict::Two);
}

#[test]
fn limits() {
    let atoms = |t: usize| {
        let lines: Vec<String> = (0..t).map(|a| format!("0 A {a} - none")).collect();
        twin::sweep(&rule_sheet(&lines), 5, &mut [0; 60]).map(|swept| swept.found)
    };
    assert_eq!(twin::sweep::arrangements(7, 5), 4_254_271_875);
    assert_eq!(atoms(7), Ok(None));
    assert_eq!(atoms(8).map_err(|refusal| refusal.number), Err(24));
}

#[test]
fn loops() {
    assert_eq!(verdict(&["0 U 0 - none"], &[(1, 1)]), Verdict::None);
    assert_eq!(verdict(&["0 U 0 - none", "0 A 0 - none"], &[(1, 1)]), Verdict::Two);
    assert_eq!(verdict(&["0 A 0 - none", "1 U 1 - none"], &[(1, 1)]), Verdict::One);
}
