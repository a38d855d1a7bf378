//! The finder beside the library's own sweep, on sheets drawn by chance: where the sweep finds a
//! sentence the finder finds one of the same length, else it finds none of one token or more.

use std::collections::{BTreeMap, HashMap};
use std::time::Duration;

use finder::{Finder, Found, Guide, Limits};
use teplonga::{sweep, verdict, words_for, Answer};

const SHEETS: u64 = 600;

/// Numbers that look like chance and are the same each time.
struct Chance(u64);

impl Chance {
    fn below(&mut self, bound: usize) -> usize {
        self.0 = self.0.wrapping_mul(6364136223846793005).wrapping_add(1442695040888963407);
        (self.0 >> 33) as usize % bound
    }

    fn one<'a>(&mut self, words: &[&'a str]) -> &'a str {
        words[self.below(words.len())]
    }

    /// A rule, of which more or fewer are unary.
    fn rule(&mut self, nonterminals: usize, terminals: usize, unary: usize) -> String {
        let left = self.below(nonterminals);
        let (first, second) = (self.below(nonterminals), self.below(nonterminals));
        match self.below(16 + unary) {
            0 => format!("{left} E - - none"),
            1..=6 => format!("{left} A {} - none", self.below(terminals)),
            16.. => {
                let lay = self.one(&["none", "none", "offside", "offalign", "single"]);
                format!("{left} U {first} - {lay}")
            }
            _ => {
                let lay = self.one(&["none", "none", "align", "align", "indent"]);
                format!("{left} B {first} {second} {lay}")
            }
        }
    }

    /// A sheet of few rules; or one of more rules, nonterminals and terminals with many unary rules
    /// among them, in which fewer words have two trees.
    fn sheet(&mut self) -> Vec<u8> {
        let (nonterminals, terminals, rules, unary) = match self.below(2) {
            0 => (1 + self.below(5), 1 + self.below(3), 2 + self.below(9), 4),
            _ => (4 + self.below(6), 4 + self.below(4), 10 + self.below(10), 16),
        };
        let mut line = || format!("{}\n", self.rule(nonterminals, terminals, unary));
        let lines: String = (0..rules).map(|_| line()).collect();
        format!("left kind first second lay\n{lines}").into_bytes()
    }
}

/// The length of the sentence that the largest sweep of up to five tokens finds, and its bound;
/// none where the sheet is refused.
fn swept(rules: &[u8]) -> Option<(usize, Option<usize>)> {
    (1..=5).rev().find_map(|bound| {
        let reply = sweep(rules, bound, &mut vec![0; words_for(bound)]);
        match reply.answer {
            Answer::Two => Some((bound, Some(reply.length))),
            Answer::Clear => Some((bound, None)),
            _ => None,
        }
    })
}

/// A guide that leaves nothing out: all pairs of rules of each nonterminal.
fn all_pairs(rules: &[u8]) -> Guide {
    let text = String::from_utf8_lossy(rules);
    let lefts: Vec<usize> = text
        .lines()
        .skip(1)
        .map(|line| line.split(' ').next().expect("a left").parse().expect("a number"))
        .collect();
    let mut pairs: BTreeMap<usize, Vec<(usize, usize)>> = BTreeMap::new();
    for (second, &left) in lefts.iter().enumerate() {
        let own = (0..=second).filter(|&first| lefts[first] == left);
        pairs.entry(left).or_default().extend(own.map(|first| (first, second)));
    }
    Guide::At(pairs)
}

/// The length of the sentence that the finder finds.
fn found(rules: &[u8], bound: usize, guide: Guide) -> Option<usize> {
    let mut limits = Limits::new(Duration::from_secs(3600), 512 << 20);
    match Finder::new(rules, bound, guide, None).find(&mut limits) {
        Found::Patch(patch) => {
            let mut words = vec![0; words_for(patch.0.len())];
            let reply = verdict(rules, patch.sheet().as_bytes(), &mut words);
            assert_eq!(reply.answer, Answer::Two);
            Some(patch.0.len())
        }
        Found::Nothing { up_to, unconfirmed, stop } => {
            assert_eq!((up_to, unconfirmed, stop), (bound, vec![], None));
            None
        }
        Found::Clear => panic!("no guide says so"),
    }
}

#[test]
fn lengths_are_those_of_the_sweep() {
    let mut chance = Chance(1);
    let mut lengths: HashMap<Option<usize>, usize> = HashMap::new();
    let mut count = 0;
    while count < SHEETS {
        let rules = chance.sheet();
        let Some((bound, shortest)) = swept(&rules) else { continue };
        count += 1;
        let sheet = String::from_utf8_lossy(&rules);
        // the sentence of no tokens comes last
        for guide in [Guide::Everywhere, all_pairs(&rules)] {
            let found = found(&rules, bound, guide).filter(|&length| length > 0);
            assert_eq!(found, shortest, "up to {bound}:\n{sheet}");
        }
        *lengths.entry(shortest).or_default() += 1;
    }
    let often = |length| lengths.get(&length).copied().unwrap_or(0);
    assert!((1..=5).all(|length| often(Some(length)) > 0) && often(None) > 100, "{lengths:?}");
}
