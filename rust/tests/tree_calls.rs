//! Row counts, beside the trees themselves; the list of places.

use teplonga::{
    places, rows, trees, words_for, Answer, Place, Refusal, RowCount, RowsReply, MOST_TOKENS, PLACE,
};

/// A rule sheet of these rules, parted by ` / `.
fn rules(text: &str) -> Vec<u8> {
    let lines: String = text.split(" / ").map(|line| format!("{line}\n")).collect();
    format!("left kind first second lay\n{lines}").into_bytes()
}

/// A token sheet of terminal 0, so many side by side.
fn row(count: usize) -> Vec<u8> {
    let lines: String = (1..=count).map(|column| format!("0 1 {column}\n")).collect();
    format!("term line col\n{lines}").into_bytes()
}

/// An empty word with 2^count - 1 rows under nonterminal 0.
fn doubling(count: usize) -> String {
    let pair = |name| format!("{name} B {0} {0} none / ", name + 1);
    (0..count - 1).map(pair).collect::<String>() + &format!("{} E - - none", count - 1)
}

const PLAIN: &str = "0 B 0 0 none / 0 A 0 - none";

#[test]
fn counted_rows_are_room_enough_and_one_fewer_is_not() {
    let sheets = (rules(PLAIN), row(5));
    let mut words = vec![7; words_for(5)];
    let reply = rows(&sheets.0, &sheets.1, &mut words);
    let RowsReply { answer: Answer::Two, line: 0, first, second } = reply else {
        panic!("{reply:?}");
    };
    let (RowCount::Exact(first), RowCount::Exact(second)) = (first, second) else {
        panic!("{reply:?}");
    };
    let answer = |one: u32, two: u32| {
        let (mut one, mut two) = (vec![7; 4 * one as usize], vec![7; 4 * two as usize]);
        let mut words = vec![7; words_for(5)];
        trees(&sheets.0, &sheets.1, &mut words, &mut one, &mut two).answer
    };
    assert_eq!(answer(first, second), Answer::Two);
    assert_eq!(answer(first - 1, second), Answer::Refused(Refusal::FewRows));
    assert_eq!(answer(first, second - 1), Answer::Refused(Refusal::FewRows));
}

#[test]
fn counts_are_told_up_to_the_most() {
    let count = |text: &str| rows(&rules(text), &row(0), &mut [0; 2]).first;
    assert_eq!(count(&doubling(32)), RowCount::Exact(u32::MAX));
    assert_eq!(count(&doubling(33)), RowCount::More);
    assert_eq!(count(&doubling(63)).to_string(), "more");
}

#[test]
fn a_refused_call_counts_nothing() {
    let short = rows(&rules(PLAIN), &row(3), &mut [0; 13]);
    let none = RowCount::Exact(0);
    let refused = |refusal, line| RowsReply {
        answer: Answer::Refused(refusal),
        line,
        first: none,
        second: none,
    };
    assert_eq!(short, refused(Refusal::FewWords, 0));
    assert_eq!(rows(b"", b"", &mut []), refused(Refusal::RuleNames, 1));
    assert_eq!(rows(&rules(PLAIN), b"term\n", &mut []), refused(Refusal::TokenNames, 1));
}

/// Places as nonterminal, start and length.
fn listed(text: &str, tokens: &[u8]) -> Vec<(u8, u8, u8)> {
    let mut list = vec![7; PLACE * 1_000];
    let reply = places(&rules(text), tokens, &mut vec![7; words_for(MOST_TOKENS)], &mut list);
    let place = |Place { nonterminal, start, length }| (nonterminal, start, length);
    reply.places.map(place).collect()
}

#[test]
fn longest_words_come_first_and_the_empty_word_last() {
    assert_eq!(listed(PLAIN, &row(4)), [(0, 0, 4), (0, 0, 3), (0, 1, 3)]);
    let empties = "0 B 1 1 none / 1 B 2 7 none / 1 U 7 - none / 7 A 0 - none / 2 E - - none / 2 U 3 - none / 3 E - - none";
    assert_eq!(listed(empties, &row(2)), [(1, 0, 1), (1, 1, 1), (2, 0, 0)]);
    assert_eq!(listed(PLAIN, &row(2)), []);
}

#[test]
fn a_list_that_does_not_fit_is_refused_and_its_bytes_are_0() {
    let sheets = (rules(PLAIN), row(4));
    let mut words = vec![7; words_for(4)];
    let mut list = [7; 3 * PLACE + 1];
    let reply = places(&sheets.0, &sheets.1, &mut words, &mut list);
    assert_eq!((reply.answer, reply.places.len()), (Answer::Two, 3));
    assert_eq!(list[3 * PLACE], 0);
    let mut list = [7; 3 * PLACE - 1];
    let reply = places(&sheets.0, &sheets.1, &mut words, &mut list);
    assert_eq!((reply.answer, reply.places.len()), (Answer::Refused(Refusal::FewRows), 0));
    assert_eq!(list, [0; 3 * PLACE - 1]);
    let mut list = [7; PLACE];
    let reply = places(b"", b"", &mut words, &mut list);
    assert_eq!((reply.answer, reply.line), (Answer::Refused(Refusal::RuleNames), 1));
    assert_eq!(list, [7; PLACE]);
}
