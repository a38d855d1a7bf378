//! A call to measure, made of the twin or of the library.

use bench::clock::timed;
use bench::families::{self, Family};
use bench::library::{self, FOUND, LINKED};
use bench::twin::{self, sheets, sweep, tried, Swept};

/// Words enough for a sentence of 64 tokens.
pub const WORDS: usize = 4162;

/// A verdict on a token sheet, or a sweep up to a bound.
pub enum Input {
    Tokens(Vec<u8>),
    Bound(u64),
}

pub struct Call {
    pub name: String,
    pub rules: Vec<u8>,
    pub input: Input,
}

/// The memory that a call is lent. It is not cleared between calls: each call
/// writes all that it answers.
pub struct Lent {
    words: Vec<u64>,
    found: [u64; FOUND],
}

impl Lent {
    pub fn new() -> Lent {
        Lent { words: vec![0; WORDS], found: [0; FOUND] }
    }
}

impl Call {
    /// The twin's answer, as the library codes it.
    pub fn twin(&self, lent: &mut Lent) -> u64 {
        match &self.input {
            Input::Tokens(tokens) => {
                twin::verdict_code(&twin::verdict(&self.rules, tokens, &mut lent.words))
            }
            Input::Bound(bound) => {
                let swept = twin::sweep(&self.rules, *bound, &mut lent.words);
                lent.found = swept.as_ref().map_or([0; FOUND], twin::found_places);
                twin::sweep_code(&swept)
            }
        }
    }

    /// The library's answer, if it is linked.
    pub fn library(&self, lent: &mut Lent) -> Option<u64> {
        match &self.input {
            Input::Tokens(tokens) => library::verdict(&self.rules, tokens, &mut lent.words),
            Input::Bound(bound) => {
                library::sweep(&self.rules, *bound, &mut lent.words, &mut lent.found)
            }
        }
    }

    /// The least CPU seconds of so many rounds, twin and library by turns. Both
    /// must answer the same and leave the same memory.
    pub fn times(&self, rounds: usize) -> Times {
        let (mut ours, mut theirs) = (Lent::new(), Lent::new());
        let (mut twin, answer) = timed(|| self.twin(&mut ours));
        let (mut library, said) = timed(|| self.library(&mut theirs));
        if LINKED {
            assert_eq!(Some(answer), said, "{}: answer", self.name);
            assert!(ours.words == theirs.words, "{}: words", self.name);
            assert!(ours.found == theirs.found, "{}: what is found", self.name);
        }
        let times = repeats(twin);
        for _ in 0..if twin < LONG { rounds } else { 0 } {
            twin = twin.min(per_call(times, || self.twin(&mut ours)));
            library = library.min(per_call(times, || self.library(&mut theirs)));
        }
        Times { twin, library: LINKED.then_some(library) }
    }

    /// The least CPU seconds of so many rounds of the twin's verdict with marks
    /// walked anew for each span.
    pub fn seconds_walked(&self, rounds: usize) -> f64 {
        let Input::Tokens(tokens) = &self.input else {
            return 0.0;
        };
        let mut lent = Lent::new();
        let mut call = || twin::verdict_walked(&self.rules, tokens, &mut lent.words);
        let times = repeats(timed(&mut call).0);
        (0..rounds).map(|_| per_call(times, &mut call)).fold(f64::INFINITY, f64::min)
    }

    /// The least CPU seconds of so many rounds of the plain verdict, which must
    /// leave the twin's words.
    pub fn seconds_plain(&self, rounds: usize) -> f64 {
        let Input::Tokens(tokens) = &self.input else {
            return 0.0;
        };
        let (mut lent, mut ours) = (Lent::new(), Lent::new());
        self.twin(&mut ours);
        let mut call = || twin::verdict_plain(&self.rules, tokens, &mut lent.words);
        let times = repeats(timed(&mut call).0);
        let seconds = (0..rounds).map(|_| per_call(times, &mut call)).fold(f64::INFINITY, f64::min);
        assert!(lent.words == ours.words, "{}: plain words", self.name);
        seconds
    }

    /// The fills of the twin's sweep without the index of lengths, and the least
    /// CPU seconds of so many rounds.
    pub fn over_all_lengths(&self, rounds: usize) -> (u64, f64) {
        let Input::Bound(bound) = self.input else {
            return (0, 0.0);
        };
        let mut lent = Lent::new();
        let mut call =
            || twin::sweep_over(&self.rules, |_| tried::ALL, bound, &mut lent.words, u64::MAX);
        let (first, swept) = timed(&mut call);
        let fills = swept.expect("the sheet is accepted").fills;
        let times = repeats(first);
        (fills, (0..rounds).map(|_| per_call(times, &mut call)).fold(first, f64::min))
    }

    /// The least CPU seconds of so many rounds: of the library where it is
    /// linked, else of the twin.
    pub fn seconds(&self, rounds: usize) -> f64 {
        let mut lent = Lent::new();
        let mut call = || if LINKED { self.library(&mut lent) } else { Some(self.twin(&mut lent)) };
        let (first, _) = timed(&mut call);
        let times = repeats(first);
        let rounds = if first < LONG { rounds } else { 0 };
        (0..rounds).map(|_| per_call(times, &mut call)).fold(first, f64::min)
    }
}

/// A call of so many seconds is measured once.
const LONG: f64 = 1.0;

/// CPU seconds of a call.
pub struct Times {
    pub twin: f64,
    /// Nothing where the library is not linked.
    pub library: Option<f64>,
}

/// How often a call is repeated so that a measurement is no shorter than 20 ms.
fn repeats(seconds: f64) -> usize {
    (0.02 / seconds.max(1e-7)).ceil() as usize
}

/// The CPU seconds of a call, over so many of them.
fn per_call<T>(times: usize, mut call: impl FnMut() -> T) -> f64 {
    let (seconds, ()) = timed(|| {
        for _ in 0..times {
            std::hint::black_box(call());
        }
    });
    seconds / times as f64
}

/// The least CPU milliseconds of five rounds of a call.
#[cfg(feature = "library")]
pub fn least<T>(mut call: impl FnMut() -> T) -> f64 {
    let (first, _) = timed(&mut call);
    let times = repeats(first);
    1e3 * (0..5).map(|_| per_call(times, &mut call)).fold(first, f64::min)
}

/// The answer in a coded result.
pub fn answer(code: u64) -> String {
    match code >> 32 {
        0 => "none".to_string(),
        1 => "one".to_string(),
        2 => "two".to_string(),
        3 => "clear".to_string(),
        number => format!("refused-{}", number - 100),
    }
}

/// T of a sheet, and the largest bound that refusal 24 lets pass.
pub fn largest_bound(rules: &[u8]) -> Option<(u64, u64)> {
    let rules = sheets::read_rules(rules).ok()?;
    let t = u64::from(sweep::terminals(&rules).count_ones());
    Some((t, (1..=7).rev().find(|&k| sweep::within_limit(t, k))?))
}

const SHEETS: [(&str, &[u8]); 5] = [
    ("block", include_bytes!("../sheets/block.rules")),
    ("block-repaired", include_bytes!("../sheets/block-repaired.rules")),
    ("yaml", include_bytes!("../sheets/yaml.rules")),
    ("fsharp", include_bytes!("../sheets/fsharp.rules")),
    ("haskell", include_bytes!("../sheets/haskell.rules")),
];

/// The sweeps of the paper's sheets, each up to its largest bound.
pub fn of_the_paper() -> Vec<Call> {
    SHEETS.iter().map(|(name, rules)| of_the_largest(name, rules.to_vec())).collect()
}

/// The sweep of a sheet up to a bound.
pub fn of_a_sweep(name: &str, rules: Vec<u8>, bound: u64) -> Call {
    Call { name: name.to_string(), rules, input: Input::Bound(bound) }
}

/// The twin's sweep of a sheet, given up after so many fills, and its CPU
/// seconds.
pub fn swept(rules: &[u8], bound: u64, most_fills: u64) -> (Swept, f64) {
    let mut words = vec![0; WORDS];
    let (seconds, swept) = timed(|| twin::sweep_within(rules, bound, &mut words, most_fills));
    (swept.expect("the sheet is accepted"), seconds)
}

/// The verdict on so many tokens, each on a line of its own, under so many
/// offside and offalign rules.
pub fn of_lines(rules: usize, tokens: usize) -> Call {
    let family = families::named("offside");
    let name = format!("offside, {tokens} lines, {rules} rules");
    Call { name, rules: (family.sheet)(rules), input: Input::Tokens(families::lines(tokens)) }
}

/// Sheets on which a search that knows terminals and positions together is slow.
const LATE: [(&str, &[u8]); 10] = [
    ("apart2", include_bytes!("../sheets/late/apart2.rules")),
    ("apart7", include_bytes!("../sheets/late/apart7.rules")),
    ("apart28", include_bytes!("../sheets/late/apart28.rules")),
    ("chain2", include_bytes!("../sheets/late/chain2.rules")),
    ("chain28", include_bytes!("../sheets/late/chain28.rules")),
    ("pairs7", include_bytes!("../sheets/late/pairs7.rules")),
    ("pairs20", include_bytes!("../sheets/late/pairs20.rules")),
    ("sum7_4", include_bytes!("../sheets/late/sum7_4.rules")),
    ("lay2chain_1", include_bytes!("../sheets/late/lay2chain_1.rules")),
    ("lay2deep_1", include_bytes!("../sheets/late/lay2deep_1.rules")),
];

/// Their sweeps, each up to its largest bound.
pub fn of_late_sheets() -> Vec<Call> {
    LATE.iter().map(|(name, rules)| of_the_largest(name, rules.to_vec())).collect()
}

/// The sweep of a sheet up to its largest bound.
pub fn of_the_largest(name: &str, rules: Vec<u8>) -> Call {
    let (_, bound) = largest_bound(&rules).expect("the sheet is accepted");
    of_a_sweep(name, rules, bound)
}

/// The verdict on so many tokens under so many rules of a family.
pub fn of_a_family(family: &Family, rules: usize, tokens: usize) -> Call {
    let tokens = families::sentence(tokens, family.terminals);
    let name = family.name.to_string();
    Call { name, rules: (family.sheet)(rules), input: Input::Tokens(tokens) }
}
