//! Sheets of any number of terminals.

use crate::random::rule_sheet;

/// Blocks of aligned statements with `t - 1` plain ones and `do`, which is
/// offside: the sweep is cut short early.
pub fn statements(t: usize) -> Vec<u8> {
    let mut lines = vec![
        "0 U 1 - none".to_string(),
        "0 U 2 - none".to_string(),
        "2 B 0 1 align".to_string(),
        "1 U 3 - offside".to_string(),
        "3 B 4 0 none".to_string(),
        format!("4 A {} - none", t - 1),
    ];
    lines.extend((0..t - 1).map(|terminal| format!("1 A {terminal} - none")));
    rule_sheet(&lines)
}

/// Any tokens, then a last one that decides: each terminal has a nonterminal of
/// its own, by which it can be the last token, and none stands for another. Two
/// trees seem possible until the last token is known.
pub fn apart(t: usize) -> Vec<u8> {
    let mut lines = vec!["1 B 1 2 none".to_string(), "1 E - - none".to_string()];
    lines.extend((0..t).flat_map(|terminal| {
        let own = 3 + terminal;
        [
            format!("{own} A {terminal} - none"),
            format!("2 U {own} - none"),
            format!("0 B 1 {own} none"),
        ]
    }));
    rule_sheet(&lines)
}

/// Any tokens, then a last one that decides, an even number in all: the index of
/// lengths spares the looks at odd lengths.
pub fn even(t: usize) -> Vec<u8> {
    let mut lines = [
        "0 B 5 2 none",
        "0 B 5 3 none",
        "5 B 1 4 none",
        "1 B 5 4 none",
        "1 E - - none",
        "2 A 0 - none",
        "3 A 1 - none",
    ]
    .map(str::to_string)
    .to_vec();
    lines.extend((0..t).map(|terminal| format!("4 A {terminal} - none")));
    rule_sheet(&lines)
}

/// A heading and circuits below it, the circuits' words being the terminals from
/// 0 to below `t`, in one rule.
pub fn words(t: usize) -> Vec<u8> {
    let last = if t == 1 { "-".to_string() } else { (t - 1).to_string() };
    let lines = [
        "0 B 2 3 indent".to_string(),
        "3 U 1 - none".to_string(),
        "3 B 3 1 align".to_string(),
        "2 A 63 - none".to_string(),
        format!("1 A 0 {last} none"),
    ];
    rule_sheet(&lines)
}
