//! Sentences that the finder is to find: the worked patches, and sheets whose leaves are stretched
//! to long words.

use std::time::Duration;

use finder::{Finder, Found, Guide, Limits, Stop};

fn limits() -> Limits {
    Limits::new(Duration::from_secs(3600), 512 << 20)
}

/// A rule sheet of these rules, parted by ` / `.
fn rules(text: &str) -> Vec<u8> {
    let lines: String = text.split(" / ").map(|line| format!("{line}\n")).collect();
    format!("left kind first second lay\n{lines}").into_bytes()
}

/// Lines and columns of the sentence of up to `most` tokens.
fn found(rules: &[u8], most: usize) -> Option<Vec<(u16, u16)>> {
    match Finder::new(rules, most, Guide::Everywhere, None).find(&mut limits()) {
        Found::Patch(patch) => Some(patch.0.iter().map(|it| (it.line.0, it.column.0)).collect()),
        Found::Nothing { stop: None, .. } => None,
        other => panic!("{other:?}"),
    }
}

#[test]
fn the_worked_patches() {
    let of = |text: &str, most| found(&rules(text), most);
    let plain = "0 B 0 0 none / 0 A 0 - none";
    assert_eq!(of(plain, 2), None);
    assert_eq!(of(plain, 3), Some(vec![(1, 1), (1, 2), (1, 3)]));
    let align = "0 B 0 0 align / 0 A 0 - none";
    assert_eq!(of(align, 3), Some(vec![(1, 1), (2, 1), (3, 1)]));
    let indent = "0 B 0 0 indent / 0 A 0 - none";
    assert_eq!(of(indent, 3), Some(vec![(1, 1), (2, 2), (3, 3)]));
    assert_eq!(of("0 B 1 1 none / 1 A 0 - none / 1 E - - none", 24), Some(vec![(1, 1)]));
    let empty = "0 B 1 2 none / 0 U 1 - none / 1 E - - none / 2 E - - none";
    assert_eq!(of(empty, 24), Some(vec![]));
    let unreached = "0 U 1 - single / 1 U 2 - none / 1 U 3 - none / 2 B 4 4 indent / \
        3 B 4 4 none / 4 A 0 - none";
    assert_eq!(of(unreached, 24), None);
    assert_eq!(of("0 U 0 - none", 24), None);
    assert_eq!(of("0 U 0 - none / 0 A 0 - none", 24), Some(vec![(1, 1)]));
}

/// Nonterminal 9 leads to itself on one line alone, and to 1, which has two lines in two ways: the
/// fork is reached through the loop, though no tree goes round it.
#[test]
fn a_fork_below_a_loop() {
    let text = "0 U 9 - none / 9 U 9 - single / 9 U 1 - none / 1 B 2 2 indent / 1 B 3 3 indent / \
        2 A 0 - none / 3 A 0 - none";
    assert_eq!(found(&rules(text), 24), Some(vec![(1, 1), (2, 2)]));
}

/// Nonterminal 1 can be reached from the start in two ways, and the fork is in 2, in words that 1
/// does not have: what can be reached need not have a tree.
#[test]
fn a_fork_beside_what_has_no_tree() {
    let text = "0 U 1 - none / 0 U 2 - none / 0 U 3 - none / 3 U 1 - single / 1 B 6 6 indent / \
        6 A 0 - none / 2 B 4 4 none / 2 B 5 5 none / 4 A 1 - none / 5 A 1 - none";
    assert_eq!(found(&rules(text), 24), Some(vec![(1, 1), (1, 2)]));
}

/// A rule for two words of its nonterminal, whose leaves are words of so many tokens.
fn stretched(mark: &str, tokens: usize) -> Vec<u8> {
    let link = |at: usize| format!("{} B 63 {} none", at - 1, at);
    let links: Vec<String> = (2..=tokens).map(link).collect();
    let chain = [format!("0 B 0 0 {mark}"), "0 U 1 - none".to_string()];
    let last = [format!("{tokens} A 0 - none"), "63 A 0 - none".to_string()];
    rules(&[&chain[..], &links[..], &last[..]].concat().join(" / "))
}

#[test]
fn long_sentences() {
    for (mark, tokens) in [("none", 4), ("align", 8), ("indent", 13), ("align", 20)] {
        let rules = stretched(mark, tokens);
        let found = found(&rules, 64).expect("three such words part in two ways");
        assert_eq!(found.len(), 3 * tokens, "{mark}");
        assert_eq!(found.last().map(|place| place.0), Some(if mark == "none" { 1 } else { 3 }));
    }
}

#[test]
fn limits_are_told() {
    let sheet = stretched("align", 20);
    let finder = Finder::new(&sheet, 64, Guide::Everywhere, None);
    let mut over = Limits::new(Duration::ZERO, 512 << 20);
    let Found::Nothing { up_to, stop, .. } = finder.find(&mut over) else { panic!("too soon") };
    assert_eq!((up_to, stop), (19, Some(Stop::Time)));
    let mut small = Limits::new(Duration::from_secs(3600), 1 << 10);
    let Found::Nothing { up_to, stop, .. } = finder.find(&mut small) else { panic!("too small") };
    assert_eq!((up_to, stop), (19, Some(Stop::Memory)));
}
