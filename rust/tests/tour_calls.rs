//! The calls on a shared tour: trees with closed nodes, and changed marks.

use teplonga::{change, show, trees, words_for, Answer, Kind, Refusal, Row};

const RULES: &[u8] =
    b"left kind first second lay\n0 B 1 2 none\n1 U 3 - none\n2 A 0 9 none\n3 A 0 - none\n";
const TWO: &[u8] = b"term line col\n0 1 1\n0 1 2\n";

/// The rows of the first tree shown to user 5: nonterminal and kind.
fn shown(rights: &[u8]) -> Vec<(u8, Kind)> {
    let (mut first, mut second) = ([7; 4 * 4], [7; 4]);
    let sheets = [RULES, TWO, rights];
    let reply = show(sheets, 5, &mut vec![7; words_for(2)], &mut first, &mut second);
    assert_eq!(reply.answer, Answer::One);
    reply.first.map(|Row { nonterminal, kind, .. }| (nonterminal, kind)).collect()
}

#[test]
fn what_a_user_may_not_see_is_one_row() {
    let (all, closed) =
        ([(0, Kind::Binary), (1, Kind::Unary), (3, Kind::Atom), (2, Kind::Atom)], Kind::Closed);
    assert_eq!(shown(b"user low high may\n5 0 63 see\n"), all);
    assert_eq!(shown(b"user low high may\n5 0 1 see\n5 2 3 change\n"), all);
    assert_eq!(shown(b"user low high may\n"), [(0, closed)]);
    assert_eq!(shown(b"user low high may\n4 0 63 see\n"), [(0, closed)]);
    let some = shown(b"user low high may\n5 0 0 see\n5 2 3 see\n");
    assert_eq!(some, [(0, Kind::Binary), (1, closed), (2, Kind::Atom)]);
    assert_eq!(closed.letter(), 'C');
}

#[test]
fn a_user_who_sees_all_is_shown_what_trees_gives() {
    let (mut words, mut others) = (vec![7; words_for(2)], vec![7; words_for(2)]);
    let mut lent = [[7; 20]; 4];
    let [first, second, third, fourth] = &mut lent;
    let sheets = [RULES, TWO, b"user low high may\n15 00000 00063 change\n"];
    let answer = show(sheets, 15, &mut words, first, second).answer;
    assert_eq!(answer, trees(RULES, TWO, &mut others, third, fourth).answer);
    assert_eq!((words, lent[0], lent[1]), (others, lent[2], lent[3]));
}

#[test]
fn a_bad_rights_sheet_is_refused_with_its_line() {
    let (mut first, mut second) = ([7; 16], [7; 4]);
    let sheets = [RULES, TWO, b"user low high may\n5 0 63 see\n16 0 0 see\n"];
    let refused = show(sheets, 5, &mut [], &mut first, &mut second).result().unwrap_err();
    assert_eq!((refused.refusal, refused.line), (Refusal::Rights, 3));
    assert_eq!((first, second), ([7; 16], [7; 4]));
}

#[test]
fn a_mark_is_changed_by_who_may() {
    let rights = b"user low high may\n5 1 1 change\n5 0 63 see\n";
    let mut bytes = [7; 100];
    let reply = change(RULES, rights, 5, 2, b"offalign", &mut bytes);
    let made = String::from_utf8(RULES.to_vec()).unwrap().replace("3 - none", "3 - offalign");
    assert_eq!((reply.answer, reply.sheet), (Answer::Given, made.as_bytes()));
    let mut refused = |rule, lay: &[u8], room: usize| {
        let refused = change(RULES, rights, 5, rule, lay, &mut bytes[..room]).result().unwrap_err();
        (refused.refusal, refused.line)
    };
    assert_eq!(refused(1, b"align", 100), (Refusal::NoRight, 0));
    assert_eq!(refused(5, b"?", 100), (Refusal::NoRight, 0));
    assert_eq!(refused(2, b"none\n0 E - - none", 100), (Refusal::RuleForm, 3));
    assert_eq!(refused(2, b"align", 100), (Refusal::RuleLay, 3));
    assert_eq!(refused(2, b"none", RULES.len() - 1), (Refusal::FewRows, 0));
}
