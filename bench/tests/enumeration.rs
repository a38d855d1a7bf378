//! The twin's sweep, which leaves much out, against all candidates one by one:
//! the sentence found and how many were tried; and the number of its fills.

use bench::late::{apart, even, words};
use bench::random::{rule_line, rule_sheet, token_lines, token_sheet, Random};
use bench::twin::grammar::{BinaryMark, Clause, Column, Line, Rule, Token, UnaryMark, Width};
use bench::twin::{self, chart, sheets, spans, sweep, tried, Swept, Verdict};

/// The first extension of `tokens` to `n` tokens that has two trees, in the
/// candidates' order; `tried` counts those looked at.
fn first_two(
    rules: &[Rule],
    terminals: &[u8],
    n: usize,
    tokens: &mut Vec<Token>,
    tried: &mut u64,
) -> bool {
    if tokens.len() == n {
        *tried += 1;
        let mut words = [0; 60];
        chart::fill(&mut words, rules, tokens);
        return spans::verdict(&words, n) == Verdict::Two;
    }
    let before = tokens.last().copied();
    let line = before.map_or(1, |token| token.line.0);
    let most = if before.is_some() { 2 } else { 0 };
    for &terminal in terminals {
        for step in 0..=most {
            for column in 1..=n as u16 {
                let (line, column, width) = (Line(line + step), Column(column), Width(1));
                let token = Token { terminal, line, column, width };
                if before.is_some_and(|before| !token.follows(&before)) {
                    continue;
                }
                tokens.push(token);
                if first_two(rules, terminals, n, tokens, tried) {
                    return true;
                }
                tokens.pop();
            }
        }
    }
    false
}

/// The rule with `none` for its mark.
fn unmarked(rule: &Rule) -> Rule {
    let clause = match rule.clause {
        Clause::Unary(b, _) => Clause::Unary(b, UnaryMark::None),
        Clause::Binary(b, d, _) => Clause::Binary(b, d, BinaryMark::None),
        clause => clause,
    };
    Rule { clause, ..*rule }
}

/// Has the start a tree over some word of `n` tokens when all marks are ignored?
/// All words are tried.
fn possible(rules: &[Rule], terminals: &[u8], n: u32) -> bool {
    let rules: Vec<Rule> = rules.iter().map(unmarked).collect();
    (0..terminals.len().pow(n)).any(|word| {
        let mut tokens = Vec::new();
        for i in 0..n {
            let terminal = terminals[word / terminals.len().pow(i) % terminals.len()];
            let (line, column, width) = (Line(1), Column(1 + i as u16), Width(1));
            tokens.push(Token { terminal, line, column, width });
        }
        let mut words = [0; 60];
        chart::fill(&mut words, &rules, &tokens);
        spans::verdict(&words, tokens.len()) != Verdict::None
    })
}

/// The first candidate with two trees, and how many of possible lengths come no
/// later.
fn enumerated(rules: &[Rule], bound: usize) -> (Option<Vec<Token>>, u64) {
    let set = sweep::terminals(rules);
    let terminals: Vec<u8> = (0..64).filter(|&a| set >> a & 1 == 1).collect();
    let mut tried = 0;
    for n in 1..=bound {
        let (mut tokens, mut looks) = (Vec::new(), 0);
        let two = first_two(rules, &terminals, n, &mut tokens, &mut looks);
        if possible(rules, &terminals, n as u32) {
            tried += looks;
        }
        if two {
            return (Some(tokens), tried);
        }
    }
    (None, tried)
}

/// Compare sweeps of random sheets that are worth it with all candidates, until
/// enough of them are clear and enough are not.
fn compare(seed: u64, terminals: u64, bound: u64, worth: fn(&[Rule], &Swept) -> bool) {
    let mut random = Random::new(seed);
    let mut met = [0; 2];
    while met[0] < 50 || met[1] < 50 {
        let count = 4 + random.below(6);
        let lines: Vec<String> = (0..count).map(|_| rule_line(&mut random, 3, terminals)).collect();
        let sheet = rule_sheet(&lines);
        let Ok(rules) = sheets::read_rules(&sheet) else {
            continue;
        };
        let swept = twin::sweep(&sheet, bound, &mut [0; 60]).expect("accepted");
        if worth(&rules, &swept) {
            let wanted = enumerated(&rules, bound as usize);
            assert_eq!((swept.found.clone(), swept.tried), wanted, "{lines:?}");
            met[usize::from(swept.found.is_some())] += 1;
        }
    }
}

#[test]
fn the_sweep_finds_the_first_of_all_candidates() {
    compare(5, 2, 4, |_, swept| swept.fills >= 30);
}

#[test]
fn terminals_that_a_lesser_one_stands_for_make_no_difference() {
    compare(7, 4, 3, |rules, swept| {
        sweep::needed(rules) != sweep::terminals(rules) && swept.fills >= 10
    });
}

#[test]
fn needed_terminals() {
    let needed = |atoms: &[&str]| {
        let lines: Vec<String> = atoms.iter().map(|atom| format!("{atom} - none")).collect();
        sweep::needed(&sheets::read_rules(&rule_sheet(&lines)).expect("accepted"))
    };
    assert_eq!(needed(&["0 A 3", "0 A 5"]), 1 << 3);
    assert_eq!(needed(&["0 A 3", "0 A 5", "1 A 5"]), 1 << 3 | 1 << 5);
    assert_eq!(needed(&["0 A 3", "1 A 3", "1 A 5", "0 A 9", "2 A 9"]), 1 << 3 | 1 << 9);
    assert_eq!(needed(&["0 A 3", "1 A 4", "0 A 5", "1 A 5"]), 1 << 3 | 1 << 4 | 1 << 5);
}

#[test]
fn rules_that_the_start_does_not_reach_make_no_difference() {
    compare(11, 2, 4, |rules, swept| {
        twin::reach::reachable(rules).len() < rules.len() && swept.fills >= 30
    });
}

/// The fills of a sheet's sweep, which is clear.
fn clear_fills(sheet: &[u8], k: u64) -> u64 {
    let swept = twin::sweep(sheet, k, &mut [0; 60]).expect("accepted");
    assert_eq!(swept.found, None);
    swept.fills
}

#[test]
fn a_last_token_that_decides_is_tried_first() {
    // For each length a fill with all open and one for each last terminal.
    for (t, k) in [(2, 6), (7, 5), (28, 4)] {
        assert_eq!(clear_fills(&apart(t), k), k * (1 + t as u64));
    }
}

#[test]
fn words_of_one_rule_cost_no_more_than_one_word() {
    assert_eq!(clear_fills(&words(60), 3), clear_fills(&words(1), 3));
}

#[test]
fn lengths_that_the_start_lacks_are_passed_over() {
    for (t, k) in [(2, 5), (7, 5), (28, 3)] {
        let sheet = even(t);
        let swept = |k| twin::sweep(&sheet, k, &mut [0; 60]).expect("accepted");
        let over_all = |k| {
            twin::sweep_over(&sheet, |_| tried::ALL, k, &mut [0; 60], u64::MAX).expect("accepted")
        };
        assert_eq!(swept(k), swept(k - 1));
        assert_eq!(swept(k).found, over_all(k).found);
        assert!(swept(k).tried < over_all(k).tried);
        // An odd length takes a fill with all open and one for each last terminal
        // that is needed: two.
        assert_eq!(swept(k).fills + 3 * k.div_ceil(2), over_all(k).fills);
    }
}

#[test]
fn walked_and_carried_marks_are_the_same() {
    let mut random = Random::new(13);
    let mut met = 0;
    while met < 200 {
        let lines: Vec<String> = (0..12).map(|_| rule_line(&mut random, 4, 2)).collect();
        let rules = rule_sheet(&lines);
        let n = 1 + random.below(12);
        let tokens = token_sheet(&token_lines(&mut random, n, 2));
        let (mut carried, mut walked) = ([0; 160], [0; 160]);
        let answer = twin::verdict(&rules, &tokens, &mut carried);
        met += usize::from(answer.is_ok());
        if answer.is_ok() {
            assert_eq!(twin::verdict_walked(&rules, &tokens, &mut walked), answer);
            assert_eq!(walked, carried);
        }
    }
}
