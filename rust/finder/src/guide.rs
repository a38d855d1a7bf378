//! Where two trees can part, as far as the test for every length tells.

use std::collections::BTreeMap;
use std::sync::mpsc;
use std::thread;

use teplonga::{always, Answer, Doubt, Why, ALWAYS_WORDS, DOUBT, MOST_DOUBTS};

use crate::limits::{Limits, Stop};

/// More pairs of rules of a nonterminal than so many say nothing: any two choices may part there.
const MOST_PAIRS: usize = 8;

/// What the test says of a sheet.
#[derive(Clone, Debug, PartialEq, Eq)]
pub enum Guide {
    /// It was not asked: trees may part anywhere.
    Everywhere,
    /// No sentence of any length has two trees.
    Clear,
    /// By nonterminal the pairs of rules, by their places from 0, between which trees may part over
    /// a word that is not empty; of any other nonterminal they never do.
    At(BTreeMap<usize, Vec<(usize, usize)>>),
}

impl Guide {
    /// The pairs of a nonterminal; none where any two choices may part.
    pub fn pairs(&self, nonterminal: usize) -> Option<&[(usize, usize)]> {
        match self {
            Guide::Everywhere => None,
            Guide::Clear => Some(&[]),
            Guide::At(places) => {
                let pairs = places.get(&nonterminal).map_or(&[][..], Vec::as_slice);
                (pairs.len() <= MOST_PAIRS).then_some(pairs)
            }
        }
    }
}

/// What the library's call `always` says of a rule sheet.
///
/// The call cannot be interrupted, so it has a thread of its own; nobody waits for it where the
/// time is up.
pub fn places(rules: &[u8], limits: &Limits) -> Result<Guide, Stop> {
    limits.look()?;
    let (sheet, (sent, received)) = (rules.to_vec(), mpsc::channel());
    thread::spawn(move || drop(sent.send(told(&sheet))));
    received.recv_timeout(limits.left()).map_err(|_| Stop::Time)
}

/// The guide of a sheet; none of one that is refused.
fn told(rules: &[u8]) -> Guide {
    let (mut words, mut list) = (vec![0; ALWAYS_WORDS], vec![0; DOUBT * MOST_DOUBTS]);
    let reply = always(rules, &mut words, &mut list);
    match reply.answer {
        Answer::Clear => Guide::Clear,
        Answer::Unknown => Guide::At(by_nonterminal(reply.doubts)),
        _ => Guide::Everywhere,
    }
}

/// The pairs of rules, by their places from 0. Two trees of the empty word are left out: shapes with
/// an empty side know of them.
fn by_nonterminal(doubts: impl Iterator<Item = Doubt>) -> BTreeMap<usize, Vec<(usize, usize)>> {
    let mut places: BTreeMap<usize, Vec<(usize, usize)>> = BTreeMap::new();
    for Doubt { nonterminal, first, second, .. } in doubts.filter(|it| it.why != Why::Empty) {
        let pair = (usize::from(first) - 1, usize::from(second) - 1);
        places.entry(nonterminal.into()).or_default().push(pair);
    }
    places
}

#[cfg(test)]
mod tests {
    use super::*;
    use std::time::Duration;

    fn guide(rules: &str) -> Guide {
        let limits = Limits::new(Duration::from_secs(3600), usize::MAX);
        let sheet = format!("left kind first second lay\n{rules}");
        places(sheet.as_bytes(), &limits).expect("an hour is enough")
    }

    #[test]
    fn the_test_is_asked() {
        assert_eq!(guide("0 A 0 - none\n"), Guide::Clear);
        let cuts = guide("0 B 0 0 none\n0 A 0 - none\n");
        assert_eq!(cuts.pairs(0), Some(&[(0, 0)][..]));
        assert_eq!(cuts.pairs(1), Some(&[][..]));
        let rules = guide("0 U 1 - none\n0 U 2 - none\n1 A 0 - none\n2 A 0 - none\n");
        assert_eq!(rules.pairs(0), Some(&[(0, 1)][..]));
        let empty = guide("0 U 1 - none\n0 U 2 - none\n1 E - - none\n2 E - - none\n");
        assert_eq!(empty.pairs(0), Some(&[][..]));
        assert_eq!(guide("x"), Guide::Everywhere);
        assert_eq!(Guide::Everywhere.pairs(0), None);
    }

    #[test]
    fn many_pairs_are_any() {
        let rules: String =
            (1..=5).map(|at| format!("0 U {at} - none\n{at} A 0 - none\n")).collect();
        assert_eq!(guide(&rules).pairs(0), None);
    }

    #[test]
    fn the_time_counts() {
        let limits = Limits::new(Duration::ZERO, usize::MAX);
        assert_eq!(places(b"", &limits), Err(Stop::Time));
    }
}
