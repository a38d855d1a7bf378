//! Columns known between two ends: which verdicts some choice of columns gives.
//! Ranges are narrowed a token at a time, until one choice is left.

use super::chart::{leaf_pairs, Tables};
use super::grammar::{has, Column, Rule, Token};
use super::ranges::{Range, RangeChart};
use super::spans;

/// A token in its lowest column, and how many columns it has.
pub type Ranged = (Token, u16);

/// Where so many choices are left, it is asked what may and what must come.
const MANY: u64 = 64;

/// Which of none, one and two some rising choice of columns gives.
pub fn columns(rules: &[Rule], ranges: &[Ranged], words: &mut [u64]) -> [bool; 3] {
    let n = ranges.len();
    let tables = Tables::of(rules);
    let tokens: Vec<Token> = ranges.iter().map(|range| range.0).collect();
    let words = &mut words[..spans::size(n)];
    words.fill(0);
    tables.empty.put(words, 0);
    let leaves = leaf_pairs(rules, &tokens, tables.empty);
    let mut ranges: Vec<Range> = ranges.iter().map(range).collect();
    let chart = RangeChart::new(&tables, n, &leaves, words);
    let mut search = Search { chart, found: [false; 3] };
    search.many(&mut ranges);
    let found = search.found;
    words.fill(0);
    found
}

fn range(&(token, columns): &Ranged) -> Range {
    let Token { terminal, line, column: low, .. } = token;
    Range { terminal, line, low, high: Column(low.0 + (columns - 1)) }
}

/// The chart is kept from choice to choice.
struct Search<'a> {
    chart: RangeChart<'a>,
    found: [bool; 3],
}

impl Search<'_> {
    /// Can nothing new come, all three being found or no choice rising?
    fn settled(&self, ranges: &[Range]) -> bool {
        let may_follow = |pair: &[Range]| pair[1].highest().follows(&pair[0].lowest());
        self.found == [true; 3] || !ranges.windows(2).all(may_follow)
    }

    /// Can nothing new come, by what may and what must hold?
    fn idle(&mut self, ranges: &[Range]) -> bool {
        let n = ranges.len();
        self.chart.fill(ranges, 0, 0..n);
        let may = self.chart.whole(n);
        let exchanged: Vec<Range> = ranges.iter().map(Range::exchanged).collect();
        self.chart.fill(&exchanged, 0, 0..n);
        let must = self.chart.whole(n);
        let outlook = [!has(must.one, 0), has(may.one, 0) && !has(must.two, 0), has(may.two, 0)];
        outlook.iter().zip(&self.found).all(|(&may, &found)| found || !may)
    }

    /// Of the tokens with several columns the one in most spans goes through
    /// them, until few choices are left.
    fn many(&mut self, ranges: &mut [Range]) {
        let n = ranges.len();
        if ranges.iter().map(Range::columns).product::<u64>() < MANY {
            self.chart.fill(ranges, 0, 0..n);
            let from = ranges.iter().position(|range| range.columns() > 1).unwrap_or(n);
            return self.few(ranges, from, n);
        }
        if self.settled(ranges) || self.idle(ranges) {
            return;
        }
        let spans = |t: usize| (t + 1) * (n - t);
        let several = (0..n).rev().filter(|&t| ranges[t].columns() > 1);
        let t = several.max_by_key(|&t| spans(t)).expect("many choices are left");
        self.each(ranges, t, |search, ranges| search.many(ranges));
    }

    /// The last token with several columns goes through them, so that the spans
    /// behind it need not be filled again. Those that begin at or past `to` are
    /// filled already, and those that end at or before `from`, the first of these
    /// tokens.
    fn few(&mut self, ranges: &mut [Range], from: usize, to: usize) {
        if self.settled(ranges) {
            return;
        }
        let Some(t) = (0..to).rev().find(|&t| ranges[t].columns() > 1) else {
            self.chart.fill(ranges, from, 0..to);
            self.found[self.chart.whole(ranges.len()).verdict() as usize] = true;
            return;
        };
        self.chart.fill(ranges, from, t + 1..to);
        self.each(ranges, t, |search, ranges| search.few(ranges, from, t + 1));
    }

    /// The token at `t` in each of its columns.
    fn each(&mut self, ranges: &mut [Range], t: usize, go: impl Fn(&mut Self, &mut [Range])) {
        let range = ranges[t];
        for column in range.low.0..=range.high.0 {
            ranges[t] = Range { low: Column(column), high: Column(column), ..range };
            go(self, ranges);
        }
        ranges[t] = range;
    }
}
