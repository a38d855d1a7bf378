//! Clause sheets answer as the rule sheets that they expand to.

use teplonga::clauses::{self, MOST_EXPANDED};
use teplonga::{refused_line, sweep, trees, words_for, Answer, Refusal};

const CLAUSES: &[u8] = b"left clause\n0 (t0 | n0 n0)+:align\n";
const TOKENS: &[u8] = b"term line col\n0 1 1\n0 1 2\n0 1 3\n";

fn expanded() -> Vec<u8> {
    clauses::expand(CLAUSES, &mut [7; MOST_EXPANDED]).sheet.to_vec()
}

#[test]
fn trees_and_sweeps_are_those_of_the_expansion() {
    let rules = expanded();
    let mut words = [vec![7; words_for(3)], vec![7; words_for(3)]];
    let mut rows = [[7; 400]; 4];
    let [one, two, three, four] = &mut rows;
    let mine = clauses::trees(CLAUSES, TOKENS, &mut words[0], one, two);
    let theirs = trees(&rules, TOKENS, &mut words[1], three, four);
    assert_eq!((mine.answer, mine.line), (theirs.answer, theirs.line));
    assert_eq!(mine.answer, Answer::Two);
    assert_eq!((rows[0], rows[1]), (rows[2], rows[3]));
    assert_eq!(words[0], words[1]);
    let mine = clauses::sweep(CLAUSES, 3, &mut words[0]);
    let theirs = sweep(&rules, 3, &mut words[1]);
    assert_eq!((mine.answer, mine.sentence()), (theirs.answer, theirs.sentence()));
}

#[test]
fn a_sheet_that_does_not_fit_is_refused_and_its_bytes_are_0() {
    let size = expanded().len();
    let mut lent = vec![7; size + 2];
    assert_eq!(clauses::expand(CLAUSES, &mut lent).sheet.len(), size);
    assert_eq!(lent[size..], [0; 2]);
    let reply = clauses::expand(CLAUSES, &mut lent[..size - 1]);
    assert_eq!((reply.answer, reply.sheet), (Answer::Refused(Refusal::FewRows), &[][..]));
    assert_eq!(lent[..size - 1], vec![0; size - 1]);
}

#[test]
fn refusals_name_their_line() {
    let deep = format!("left clause\n0 t0\n0 {}t0{}\n", "(".repeat(17), ")".repeat(17));
    let reply = clauses::verdict(deep.as_bytes(), TOKENS, &mut []);
    assert_eq!(reply.to_string(), "refused-42 3");
    assert_eq!(
        clauses::refused_line(deep.as_bytes(), TOKENS),
        &deep.as_bytes()[17..deep.len() - 1]
    );
    assert_eq!(
        clauses::verdict(b"left clause\n0 n63\n", TOKENS, &mut []).to_string(),
        "refused-43 0"
    );
    assert_eq!(
        clauses::verdict(b"left clause\n1 t0\n", TOKENS, &mut []).to_string(),
        "refused-7 0"
    );
    assert_eq!(clauses::refused_line(b"left clause\n1 t0\n", TOKENS), refused_line(b"", TOKENS));
}
