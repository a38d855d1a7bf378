//! The test at every length: the paper's sheets, refusals and lent memory.

use std::fs;
use std::path::PathBuf;

use teplonga::{always, clauses, sweep, words_for, Answer, Doubt, Refusal, Why};
use teplonga::{ALWAYS_WORDS, DOUBT, MOST_DOUBTS};

const PLAIN: &[u8] = b"left kind first second lay\n0 B 0 0 none\n0 A 0 - none\n";

/// A file of the repository.
fn read(path: &str) -> Vec<u8> {
    let top = PathBuf::from(env!("CARGO_MANIFEST_DIR")).join("..");
    fs::read(top.join(path)).expect("a file of the repository")
}

/// What the test says of a rule sheet or a clause sheet.
fn told(sheet: &[u8]) -> (Answer, Vec<Doubt>) {
    let (mut words, mut list) = (vec![7; ALWAYS_WORDS], vec![7; DOUBT * MOST_DOUBTS]);
    let call = if sheet.starts_with(b"left clause\n") { clauses::always } else { always };
    let reply = call(sheet, &mut words, &mut list);
    let told = (reply.answer, reply.doubts.collect());
    assert!(words.iter().all(|&word| word == 0));
    told
}

#[test]
fn the_papers_sheets() {
    for name in ["block-repaired", "yaml", "fsharp", "haskell"] {
        let [rules, written] =
            [format!("bench/sheets/{name}.rules"), format!("examples/{name}.clauses")];
        assert_eq!(told(&read(&rules)), (Answer::Clear, vec![]), "{rules}");
        assert_eq!(told(&read(&written)), (Answer::Clear, vec![]), "{written}");
    }
    let variants = ["fsharp-rule", "fsharp-unmarked", "haskell-decl", "haskell-valdef"];
    for name in [&variants[..], &["haskell-valdef-decl", "yaml-3-2"]].concat() {
        let (answer, doubts) = told(&read(&format!("bench/sheets/variants/{name}.rules")));
        assert_eq!(answer, Answer::Unknown, "{name}");
        assert!(!doubts.is_empty(), "{name}");
    }
    let (answer, doubts) = told(&read("bench/sheets/block.rules"));
    let rules = Doubt { nonterminal: 0, first: 1, second: 2, why: Why::Rules };
    let cuts = Doubt { nonterminal: 2, first: 3, second: 3, why: Why::Cuts };
    assert_eq!((answer, doubts), (Answer::Unknown, vec![rules, cuts]));
}

#[test]
fn the_empty_word() {
    let rules =
        b"left kind first second lay\n0 B 1 2 none\n0 U 1 - none\n1 E - - none\n2 E - - none\n";
    let empty = Doubt { nonterminal: 0, first: 1, second: 2, why: Why::Empty };
    assert_eq!(told(rules), (Answer::Unknown, vec![empty]));
    assert_eq!(sweep(rules, 7, &mut vec![0; words_for(7)]).answer, Answer::Clear);
}

#[test]
fn refusals_leave_what_is_lent() {
    let (mut words, mut list) = (vec![7; ALWAYS_WORDS + 1], vec![7; 8]);
    let reply = always(b"left kind\n", &mut words, &mut list);
    assert_eq!((reply.answer, reply.line), (Answer::Refused(Refusal::RuleNames), 1));
    assert_eq!(reply.doubts.len(), 0);
    let reply = always(PLAIN, &mut words[..ALWAYS_WORDS - 1], &mut list);
    assert_eq!((reply.answer, reply.line), (Answer::Refused(Refusal::FewWords), 0));
    assert!(words.iter().all(|&word| word == 7) && list.iter().all(|&byte| byte == 7));
    let reply = always(PLAIN, &mut words, &mut list[..3]);
    assert_eq!((reply.answer, reply.line), (Answer::Refused(Refusal::FewRows), 0));
    assert!(words[..ALWAYS_WORDS].iter().all(|&word| word == 0));
    assert_eq!((words[ALWAYS_WORDS], &list[..4]), (7, &[0, 0, 0, 7][..]));
}
