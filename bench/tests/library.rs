//! The library against the twin, where it is linked.

#![cfg(feature = "library")]

mod common;

use bench::library::{self, FOUND};
use bench::twin;
use common::{cases, shown, Case, LENT};

/// A call's code and the words after it, and for a sweep the found sentence.
type Outcome = (u64, Vec<u64>, Option<[u64; FOUND]>);

fn of_the_twin(case: &Case) -> Outcome {
    match case {
        Case::Verdict(rules, tokens, lent) => {
            let mut words = vec![LENT; *lent];
            let answer = twin::verdict(rules, tokens, &mut words);
            (twin::verdict_code(&answer), words, None)
        }
        Case::Sweep(rules, bound, lent) => {
            let mut words = vec![LENT; *lent];
            let answer = twin::sweep(rules, *bound, &mut words);
            let found = answer.as_ref().ok().map(twin::found_places);
            (twin::sweep_code(&answer), words, found)
        }
    }
}

fn of_the_library(case: &Case) -> Outcome {
    match case {
        Case::Verdict(rules, tokens, lent) => {
            let mut words = vec![LENT; *lent];
            let code = library::verdict(rules, tokens, &mut words).expect("linked");
            (code, words, None)
        }
        Case::Sweep(rules, bound, lent) => {
            let mut words = vec![LENT; *lent];
            let mut found = [LENT; FOUND];
            let code = library::sweep(rules, *bound, &mut words, &mut found).expect("linked");
            let accepted = code >> 32 < 100;
            (code, words, accepted.then_some(found))
        }
    }
}

#[test]
fn library_answers_as_the_twin() {
    for case in cases() {
        assert_eq!(of_the_library(&case), of_the_twin(&case), "{}", shown(&case));
    }
}
