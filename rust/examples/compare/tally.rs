//! How often each call gave each answer.

use std::collections::BTreeMap;

/// The calls, as questions name them.
const CALLS: [&str; 18] = [
    "verdict",
    "trees",
    "rows",
    "places",
    "sweep",
    "line",
    "clause-verdict",
    "clause-trees",
    "clause-sweep",
    "clause-line",
    "expand",
    "share",
    "merge",
    "columns",
    "show",
    "change",
    "always",
    "clause-always",
];

/// A line a call: the call, and the answers that it must have given at least
/// once in a whole run.
const REQUIRED: &str = include_str!("../../compare/required.txt");

/// The answers that a call must have given at least once in a whole run.
fn required(call: &str) -> Vec<String> {
    let lines = REQUIRED.lines().filter(|line| !line.starts_with('#'));
    let words = lines.map(|line| line.split(' ')).find(|words| words.clone().next() == Some(call));
    words.expect("a line a call").skip(1).map(str::to_string).collect()
}

/// The answers in the order of the table.
fn answers() -> Vec<String> {
    let words = ["none", "one", "two", "clear", "given", "unknown"].map(str::to_string);
    let numbers = (1..=7).chain(11..=15).chain(21..=24).chain(41..=51);
    words.into_iter().chain(numbers.map(|number| format!("refused-{number}"))).collect()
}

fn first_word(line: &str) -> &str {
    line.split(' ').next().expect("a line has a first word")
}

/// Counts by call and answer.
pub struct Tally(BTreeMap<(String, String), usize>);

impl Tally {
    pub fn new() -> Tally {
        Tally(BTreeMap::new())
    }

    /// Counts a question and its answer.
    pub fn count(&mut self, question: &str, answer: &str) {
        let key = (first_word(question).to_string(), first_word(answer).to_string());
        *self.0.entry(key).or_default() += 1;
    }

    pub fn total(&self) -> usize {
        self.0.values().sum()
    }

    fn met(&self, call: &str, answer: &str) -> usize {
        self.0.get(&(call.to_string(), answer.to_string())).copied().unwrap_or(0)
    }

    fn of_call(&self, call: &str) -> usize {
        self.0.iter().filter(|((name, _), _)| name == call).map(|(_, count)| count).sum()
    }

    /// The required answers that no call of their kind gave.
    pub fn never_met(&self) -> Vec<String> {
        let missing = |call: &'static str| {
            let wanted = required(call).into_iter();
            wanted
                .filter(move |answer| self.met(call, answer) == 0)
                .map(move |answer| format!("{call} {answer}"))
        };
        CALLS.into_iter().flat_map(missing).collect()
    }

    /// Prints the counts as a table, those of clause sheets below.
    pub fn show(&self) {
        for calls in CALLS.chunks(8) {
            row("answer", calls.iter().map(|call| call.to_string()));
            for answer in answers() {
                row(&answer, calls.iter().map(|call| self.met(call, &answer).to_string()));
            }
            row("all", calls.iter().map(|call| self.of_call(call).to_string()));
        }
    }
}

fn row(name: &str, cells: impl Iterator<Item = String>) {
    let cells: String = cells.map(|cell| format!("{cell:>15}")).collect();
    println!("{name:<12}{cells}");
}
