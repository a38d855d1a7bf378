//! The worked example and the patches P1 to P9.

use teplonga::{
    refused_line, sweep, trees, verdict, words_for, Answer, Column, Line, Refusal, Reply, Rows,
    Token,
};

/// A rule sheet of these rules, parted by ` / `.
fn rules(text: &str) -> Vec<u8> {
    let lines: String = text.split(" / ").map(|line| format!("{line}\n")).collect();
    format!("left kind first second lay\n{lines}").into_bytes()
}

/// A token sheet of terminal 0 at these lines and columns.
fn tokens(places: &[(u16, u16)]) -> Vec<u8> {
    let lines: String = places.iter().map(|(line, col)| format!("0 {line} {col}\n")).collect();
    format!("term line col\n{lines}").into_bytes()
}

fn verdict_of(text: &str, places: &[(u16, u16)]) -> Answer {
    let mut words = vec![7; words_for(places.len())];
    let reply = verdict(&rules(text), &tokens(places), &mut words);
    assert_eq!(reply.line, 0);
    reply.answer
}

/// The sentence of terminal 0 that a sweep finds, as lines and columns.
fn swept(text: &str, bound: usize) -> Option<Vec<(u16, u16)>> {
    let mut words = vec![7; words_for(bound) + 1];
    let reply = sweep(&rules(text), bound, &mut words);
    assert!(words[..words_for(bound)].iter().all(|&word| word == 0));
    assert_eq!(words.last(), Some(&7));
    let found: Vec<(u16, u16)> = reply.sentence().iter().map(place).collect();
    match reply.answer {
        Answer::Clear => None,
        _ => Some(found),
    }
}

fn place(token: &Token) -> (u16, u16) {
    let &Token { terminal: 0, line: Line(line), column: Column(column) } = token else {
        panic!("another terminal");
    };
    (line, column)
}

/// Rows as the program `check` prints them.
fn lines(rows: Rows) -> Vec<String> {
    let line = |row: teplonga::Row| {
        format!("{} {} {} {}", row.nonterminal, row.kind.letter(), row.start, row.length)
    };
    rows.map(line).collect()
}

const PLAIN: &str = "0 B 0 0 none / 0 A 0 - none";
const ROW: [(u16, u16); 3] = [(1, 1), (1, 2), (1, 3)];

#[test]
fn worked_example() {
    let mut words = [7; 15];
    let (mut first, mut second) = ([7; 25], [7; 20]);
    let reply = trees(&rules(PLAIN), &tokens(&ROW), &mut words, &mut first, &mut second);
    assert_eq!((reply.answer, reply.line), (Answer::Two, 0));
    assert_eq!(lines(reply.first), ["0 B 0 3", "0 A 0 1", "0 B 1 2", "0 A 1 1", "0 A 2 1"]);
    assert_eq!(lines(reply.second), ["0 B 0 3", "0 B 0 2", "0 A 0 1", "0 A 1 1", "0 A 2 1"]);
    assert_eq!(first[20..], [0; 5]);
    assert_eq!(words, [0, 0, 1, 0, 1, 0, 1, 0, 1, 0, 1, 0, 1, 1, 7]);
}

#[test]
fn a_tree_that_does_not_fit_is_refused() {
    let mut words = [7; 14];
    let (mut first, mut second) = ([7; 20], [7; 19]);
    let reply = trees(&rules(PLAIN), &tokens(&ROW), &mut words, &mut first, &mut second);
    assert_eq!((reply.answer, reply.line), (Answer::Refused(Refusal::FewRows), 0));
    assert_eq!((reply.first.len(), reply.second.len()), (0, 0));
    assert_eq!((first, second), ([0; 20], [0; 19]));
    assert_eq!(words, [0, 0, 1, 0, 1, 0, 1, 0, 1, 0, 1, 0, 1, 1]);
}

#[test]
fn a_refused_call_changes_nothing() {
    let mut words = [7; 13];
    let (mut first, mut second) = ([7; 20], [7; 20]);
    let reply = trees(&rules(PLAIN), &tokens(&ROW), &mut words, &mut first, &mut second);
    assert_eq!((reply.answer, reply.line), (Answer::Refused(Refusal::FewWords), 0));
    assert_eq!((words, first, second), ([7; 13], [7; 20], [7; 20]));
}

#[test]
fn sweeps_of_p1_to_p5() {
    assert_eq!(swept(PLAIN, 2), None);
    assert_eq!(swept(PLAIN, 3), Some(vec![(1, 1), (1, 2), (1, 3)]));
    let align = PLAIN.replacen("none", "align", 1);
    assert_eq!(swept(&align, 3), Some(vec![(1, 1), (2, 1), (3, 1)]));
    let indent = PLAIN.replacen("none", "indent", 1);
    assert_eq!(swept(&indent, 3), Some(vec![(1, 1), (2, 2), (3, 3)]));
    let p4 = "0 B 1 1 none / 1 A 0 - none / 1 E - - none";
    assert_eq!(verdict_of(p4, &[(1, 1)]), Answer::Two);
    let p5 = "0 B 1 2 none / 0 U 1 - none / 1 E - - none / 2 E - - none";
    assert_eq!(verdict_of(p5, &[]), Answer::Two);
    assert!((1..=7).all(|bound| swept(p5, bound).is_none()));
}

#[test]
fn verdicts_of_p6_to_p9() {
    let p6 = "0 U 1 - offside / 1 B 2 2 none / 2 A 0 - none";
    assert_eq!(verdict_of(p6, &[(1, 3), (2, 3)]), Answer::None);
    assert_eq!(verdict_of(p6, &[(1, 3), (2, 4)]), Answer::One);
    let p7 = p6.replace("offside", "offalign");
    assert_eq!(verdict_of(&p7, &[(1, 3), (2, 3)]), Answer::One);
    assert_eq!(verdict_of(&p7, &[(1, 3), (2, 2)]), Answer::None);
    let p8 = "0 B 1 1 indent / 1 A 0 - none";
    assert_eq!(verdict_of(p8, &[(1, 1), (2, 2)]), Answer::One);
    assert_eq!(verdict_of(p8, &[(1, 1), (3, 2)]), Answer::One);
    assert_eq!(verdict_of(p8, &[(1, 1), (2, 1)]), Answer::None);
    let p9 = "0 U 1 - single / 1 U 2 - none / 1 U 3 - none / 2 B 4 4 indent / 3 B 4 4 none \
              / 4 A 0 - none";
    assert_eq!(verdict_of(p9, &[(1, 1), (2, 2)]), Answer::None);
}

#[test]
fn the_limit_of_a_sweep() {
    let sheet = |count: usize| {
        let lines: Vec<String> = (0..count).map(|t| format!("0 A {t} - none")).collect();
        rules(&format!("{} / 0 U 1 - none / 1 A 0 - none", lines.join(" / ")))
    };
    let mut words = vec![0; words_for(5)];
    let two = [Token { terminal: 0, line: Line(1), column: Column(1) }];
    let reply = sweep(&sheet(7), 5, &mut words);
    assert_eq!((reply.answer, reply.sentence()), (Answer::Two, &two[..]));
    let reply = sweep(&sheet(8), 5, &mut words);
    assert_eq!(
        (reply.answer, reply.line, reply.length),
        (Answer::Refused(Refusal::ManyCandidates), 0, 0)
    );
}

#[test]
fn refused_lines_are_parts_of_their_sheets() {
    let (good, startless) = (rules(PLAIN), rules("1 A 0 - none"));
    let bad = rules("0 A 0 - none / 0 A 0 - align");
    let late = tokens(&[(1, 2), (1, 2)]);
    let mut words = [0; 2];
    let reply = verdict(&bad, &late, &mut words);
    assert_eq!(reply, Reply { answer: Answer::Refused(Refusal::RuleLay), line: 3 });
    assert_eq!(refused_line(&bad, &late), b"0 A 0 - align");
    assert_eq!(refused_line(&bad, &late).as_ptr(), bad[40..].as_ptr());
    assert_eq!(refused_line(&good, &late), b"0 1 2");
    assert_eq!(refused_line(&good, &late).as_ptr(), late[20..].as_ptr());
    assert_eq!(refused_line(&startless, &late).as_ptr_range(), startless[..0].as_ptr_range());
    assert_eq!(refused_line(&good, &tokens(&ROW)).as_ptr_range(), good[..0].as_ptr_range());
    assert_eq!(refused_line(b"", b""), b"");
    assert_eq!(refused_line(&good, b"\n").len(), 0);
}
