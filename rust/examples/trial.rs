//! Tries the test at every length beside the sweep, on sheets drawn by chance.
//!
//! `trial COUNT [SEED]`: so many sheets are drawn that the library accepts. Of each that the test
//! clears, neither the sentence of no tokens nor one of those that the sweep tries at the largest
//! bound that it takes may have two trees. Prints how many there were; the exit status is 1 where
//! one has two trees, and it is printed.

use std::process::ExitCode;

use teplonga::{always, sweep, verdict, words_for, Answer};
use teplonga::{ALWAYS_WORDS, DOUBT, MOST_BOUND, MOST_DOUBTS};

/// Numbers by chance, the same ones for the same seed.
struct Chance(u64);

impl Chance {
    fn next(&mut self) -> u64 {
        self.0 = self.0.wrapping_add(0x9E37_79B9_7F4A_7C15);
        let mixed = (self.0 ^ (self.0 >> 30)).wrapping_mul(0xBF58_476D_1CE4_E5B9);
        let mixed = (mixed ^ (mixed >> 27)).wrapping_mul(0x94D0_49BB_1331_11EB);
        mixed ^ (mixed >> 31)
    }

    fn below(&mut self, count: u64) -> u64 {
        self.next() % count
    }

    fn of<'a>(&mut self, words: &[&'a str]) -> &'a str {
        words[self.below(words.len() as u64) as usize]
    }
}

/// A rule of one of so many nonterminals and terminals.
fn rule(chance: &mut Chance, nonterminals: u64, terminals: u64) -> String {
    let [left, first, second] = [0; 3].map(|_| chance.below(nonterminals));
    match chance.below(10) {
        0 => format!("{left} E - - none\n"),
        1..=3 => format!("{left} A {} - none\n", chance.below(terminals)),
        4 | 5 => {
            let lay = chance.of(&["none", "offside", "offalign", "single"]);
            format!("{left} U {first} - {lay}\n")
        }
        _ => {
            let lay = chance.of(&["none", "none", "align", "indent"]);
            format!("{left} B {first} {second} {lay}\n")
        }
    }
}

fn sheet(chance: &mut Chance) -> Vec<u8> {
    let (nonterminals, terminals) = (1 + chance.below(5), 1 + chance.below(3));
    let rules = 2 + chance.below(9);
    let lines: String = (0..rules).map(|_| rule(chance, nonterminals, terminals)).collect();
    format!("left kind first second lay\n{lines}").into_bytes()
}

/// What the library says of sheets, in memory that is lent again and again.
struct Library {
    words: Vec<u64>,
    list: Vec<u8>,
}

impl Library {
    fn new() -> Library {
        Library { words: vec![0; ALWAYS_WORDS], list: vec![0; DOUBT * MOST_DOUBTS] }
    }

    fn told(&mut self, rules: &[u8]) -> Answer {
        always(rules, &mut self.words, &mut self.list).answer
    }

    /// The answers for no tokens, and of the sweep with the largest bound that it takes.
    fn swept(&mut self, rules: &[u8]) -> [Answer; 2] {
        let words = &mut self.words[..words_for(MOST_BOUND)];
        let none = verdict(rules, b"term line col\n", words).answer;
        let replies = (1..=MOST_BOUND).rev().map(|bound| sweep(rules, bound, words).answer);
        let mut taken = replies.skip_while(|answer| answer.is_refused());
        [none, taken.next().expect("no sweep of one token is too large")]
    }
}

/// The numbers of a command line.
fn numbers() -> Option<(u64, u64)> {
    let words: Option<Vec<u64>> = std::env::args().skip(1).map(|word| word.parse().ok()).collect();
    match words?[..] {
        [count] => Some((count, 1)),
        [count, seed] => Some((count, seed)),
        _ => None,
    }
}

fn main() -> ExitCode {
    let Some((count, seed)) = numbers() else {
        eprintln!("usage: trial COUNT [SEED]");
        return ExitCode::from(2);
    };
    let (mut chance, mut library) = (Chance(seed), Library::new());
    let (mut drawn, mut cleared) = (0, 0);
    while drawn < count {
        let rules = sheet(&mut chance);
        let told = library.told(&rules);
        drawn += u64::from(!told.is_refused());
        if told == Answer::Clear {
            cleared += 1;
            if library.swept(&rules).contains(&Answer::Two) {
                println!("cleared, and has two trees:\n{}", String::from_utf8_lossy(&rules));
                return ExitCode::FAILURE;
            }
        }
    }
    println!("{drawn} sheets, {cleared} of them cleared: none has two trees");
    ExitCode::SUCCESS
}
