//! The chart of tokens whose columns are known between two ends: what may have
//! trees in some columns within the ends; with the ends exchanged what must have
//! them in all; where each token has one column, what has them.

use super::chart::Tables;
use super::cuts::{Cuts, NO_CUTS};
use super::grammar::{Column, Line, Token, Width};
use super::marks::Marks;
use super::spans::{place, Pair};

/// A token between its lowest and its highest column.
#[derive(Clone, Copy)]
pub struct Range {
    pub terminal: u8,
    pub line: Line,
    pub low: Column,
    pub high: Column,
}

impl Range {
    fn at(&self, column: Column) -> Token {
        Token { terminal: self.terminal, line: self.line, column, width: Width(1) }
    }

    pub fn lowest(&self) -> Token {
        self.at(self.low)
    }

    pub fn highest(&self) -> Token {
        self.at(self.high)
    }

    pub fn columns(&self) -> u64 {
        u64::from(self.high.0 - self.low.0) + 1
    }

    pub fn exchanged(&self) -> Range {
        Range { low: self.high, high: self.low, ..*self }
    }

    /// Is a column within the ends of both?
    fn overlaps(&self, other: &Range) -> bool {
        self.low <= other.high && other.low <= self.high
    }
}

/// The pairs of all spans, and the rows and columns that go with them. They are
/// kept while tokens move, and turn over where a pair changes.
pub struct RangeChart<'a> {
    tables: &'a Tables,
    words: &'a mut [u64],
    rows: Vec<Cuts>,
    columns: Vec<Cuts>,
}

impl<'a> RangeChart<'a> {
    /// The words have the pair of the empty word, and no other.
    pub fn new(tables: &'a Tables, n: usize, leaves: &[Pair], words: &'a mut [u64]) -> Self {
        let mut chart =
            RangeChart { tables, words, rows: vec![NO_CUTS; n], columns: vec![NO_CUTS; n + 1] };
        for (start, &leaf) in leaves.iter().enumerate() {
            chart.replace(n, start, start + 1, leaf);
        }
        chart
    }

    /// Fill the pairs of the spans of two tokens or more that begin at one of the
    /// starts and end past `from`.
    pub fn fill(&mut self, ranges: &[Range], from: usize, starts: std::ops::Range<usize>) {
        for start in starts.rev() {
            self.fill_start(ranges, from, start);
        }
    }

    fn fill_start(&mut self, ranges: &[Range], from: usize, start: usize) {
        let (n, tables) = (ranges.len(), self.tables);
        let first = &ranges[start];
        let mut marks = Marks::of(first.low);
        for end in start + 2..=n {
            let (before, token) = (&ranges[end - 2], &ranges[end - 1]);
            let (x, y, z) = (first.lowest(), before.highest(), token.highest());
            marks.see(end - 1 - start, &x, &y, &z, first.overlaps(token));
            if from < end {
                let pair = tables.settled(&self.rows[start], &self.columns[end], &marks, start);
                self.replace(n, start, end, pair);
            }
        }
    }

    /// Give a span its pair.
    fn replace(&mut self, n: usize, start: usize, end: usize, pair: Pair) {
        let at = place(n, start, end - start);
        let old = Pair::at(self.words, at);
        if pair != old {
            pair.put(self.words, at);
            let (changed, binaries) = (pair.changed(old), &self.tables.binaries);
            binaries.turn_row(&mut self.rows[start], changed, end);
            binaries.turn_column(&mut self.columns[end], changed, start);
        }
    }

    /// The pair of all tokens.
    pub fn whole(&self, n: usize) -> Pair {
        Pair::at(self.words, place(n, 0, n))
    }
}
