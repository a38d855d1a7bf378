//! The twin: verdicts, sweeps and columns in plain Rust, by the library's algorithm.

mod chains;
pub mod chart;
pub mod columns;
mod cuts;
pub mod grammar;
mod half_chart;
mod leaves;
mod marks;
mod plain;
mod ranges;
pub mod reach;
pub mod sheets;
pub mod spans;
pub mod sweep;
pub mod tried;

use crate::library::FOUND;
use grammar::{Rule, Token};
use sheets::Refusal;

/// How many valid trees the start has over the whole sentence.
#[derive(Clone, Copy, Debug, PartialEq, Eq)]
pub enum Verdict {
    None,
    One,
    Two,
}

/// What a sweep found: the first candidate with two trees, if any.
#[derive(Clone, Debug, PartialEq, Eq)]
pub struct Swept {
    pub found: Option<Vec<Token>>,
    /// How many times a chart was filled.
    pub fills: u64,
    /// Whether the search ended before its limit of fills.
    pub finished: bool,
    /// How many candidates were tried, those of blocks passed over too.
    pub tried: u64,
}

/// The verdict on a sentence. `words` get its span sheet.
pub fn verdict(rules: &[u8], tokens: &[u8], words: &mut [u64]) -> Result<Verdict, Refusal> {
    let rules = sheets::read_rules(rules)?;
    let tokens = sheets::read_tokens(tokens)?;
    if words.len() < spans::size(tokens.len()) {
        return Err(Refusal::whole(21));
    }
    chart::fill(words, &rules, &tokens);
    Ok(spans::verdict(words, tokens.len()))
}

/// The same, with each span's tokens walked for its marks: what carrying spares.
pub fn verdict_walked(rules: &[u8], tokens: &[u8], words: &mut [u64]) -> Result<Verdict, Refusal> {
    let rules = sheets::read_rules(rules)?;
    let tokens = sheets::read_tokens(tokens)?;
    chart::fill_walked(words, &rules, &tokens);
    Ok(spans::verdict(words, tokens.len()))
}

/// The same, as a good programmer would write it first.
pub fn verdict_plain(rules: &[u8], tokens: &[u8], words: &mut [u64]) -> Result<Verdict, Refusal> {
    let rules = sheets::read_rules(rules)?;
    let tokens = sheets::read_tokens(tokens)?;
    plain::fill(words, &rules, &tokens);
    Ok(spans::verdict(words, tokens.len()))
}

/// The first sentence of 1 to `bound` tokens with two trees.
pub fn sweep(rules: &[u8], bound: u64, words: &mut [u64]) -> Result<Swept, Refusal> {
    sweep_within(rules, bound, words, u64::MAX)
}

/// The same, given up after `most_fills` fills of a chart.
pub fn sweep_within(
    rules: &[u8],
    bound: u64,
    words: &mut [u64],
    most_fills: u64,
) -> Result<Swept, Refusal> {
    sweep_over(rules, tried::start_lengths, bound, words, most_fills)
}

/// The same, over the lengths that `lengths` says.
pub fn sweep_over(
    rules: &[u8],
    lengths: fn(&[Rule]) -> u8,
    bound: u64,
    words: &mut [u64],
    most_fills: u64,
) -> Result<Swept, Refusal> {
    let rules = sheets::read_rules(rules)?;
    if !(1..=7).contains(&bound) {
        return Err(Refusal::whole(23));
    }
    // The limit counts all terminals, those that are left out of the search too.
    let all = sweep::terminals(&rules);
    if !sweep::within_limit(u64::from(all.count_ones()), bound) {
        return Err(Refusal::whole(24));
    }
    let bound = bound as usize;
    if words.len() < spans::size(bound) {
        return Err(Refusal::whole(21));
    }
    let needed = sweep::needed(&rules);
    let lengths = lengths(&rules);
    let reached = reach::reachable(&rules);
    let mut swept = sweep::search(&reached, needed, lengths, bound, words, most_fills);
    swept.tried = tried::tried(lengths, all, bound, swept.found.as_deref());
    words[..spans::size(bound)].fill(0);
    Ok(swept)
}

/// A verdict's answer as the library gives it: its code times 2^32, plus the line.
pub fn verdict_code(answer: &Result<Verdict, Refusal>) -> u64 {
    match answer {
        Ok(Verdict::None) => coded(0, 0),
        Ok(Verdict::One) => coded(1, 0),
        Ok(Verdict::Two) => coded(2, 0),
        Err(refusal) => refusal_code(refusal),
    }
}

/// A sweep's answer as the library gives it.
pub fn sweep_code(answer: &Result<Swept, Refusal>) -> u64 {
    match answer {
        Ok(swept) if swept.found.is_some() => coded(2, 0),
        Ok(_) => coded(3, 0),
        Err(refusal) => refusal_code(refusal),
    }
}

/// What a sweep found as the library writes it: the sentence's length, then
/// terminal, line and column of each token, and 0 in the places past it; then
/// how many candidates were tried.
pub fn found_places(swept: &Swept) -> [u64; FOUND] {
    let mut places = [0; FOUND];
    for (i, token) in swept.found.iter().flatten().enumerate() {
        places[0] += 1;
        places[1 + 3 * i] = u64::from(token.terminal);
        places[2 + 3 * i] = u64::from(token.line.0);
        places[3 + 3 * i] = u64::from(token.column.0);
    }
    places[FOUND - 1] = swept.tried;
    places
}

fn refusal_code(refusal: &Refusal) -> u64 {
    coded(100 + refusal.number, refusal.line)
}

fn coded(code: u64, line: u64) -> u64 {
    code << 32 | line
}
