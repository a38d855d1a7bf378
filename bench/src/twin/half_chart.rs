//! The chart over half-known sentences of one length, kept from fill to fill: a
//! pair that changes is turned over in the column of its end.

use super::chart::Tables;
use super::cuts::{Cuts, NO_CUTS};
use super::marks::{Half, Marks};
use super::spans::{place, size, Pair};
use super::Verdict;

pub struct HalfChart<'a> {
    tables: &'a Tables,
    n: usize,
    words: &'a mut [u64],
    columns: Vec<Cuts>,
}

impl<'a> HalfChart<'a> {
    /// Of sentences of `n` tokens, no tree being known.
    pub fn new(tables: &'a Tables, n: usize, words: &'a mut [u64]) -> Self {
        words[..size(n)].fill(0);
        tables.empty.put(words, 0);
        HalfChart { tables, n, words, columns: vec![NO_CUTS; n + 1] }
    }

    /// Give a token its pair.
    pub fn give(&mut self, token: usize, pair: Pair) {
        self.replace(token, token + 1, pair);
    }

    fn replace(&mut self, start: usize, end: usize, pair: Pair) {
        let at = place(self.n, start, end - start);
        let old = Pair::at(self.words, at);
        if pair != old {
            pair.put(self.words, at);
            let column = &mut self.columns[end];
            self.tables.binaries.turn_column(column, pair.changed(old), start);
        }
    }

    /// Fill the pairs of all spans of two tokens or more, but keep those of spans
    /// that end at or before the token `from` and those that begin at or past the
    /// token `to`.
    pub fn fill(&mut self, sentence: &Half, from: usize, to: usize) {
        for start in (0..to).rev() {
            self.fill_start(sentence, from, start);
        }
    }

    fn fill_start(&mut self, sentence: &Half, from: usize, start: usize) {
        let tables = self.tables;
        let mut row = NO_CUTS;
        let mut marks = Marks::of(sentence.tokens[start].column);
        for end in start + 1..=self.n {
            if start + 1 < end {
                marks.grow(sentence, start, end - 1 - start);
            }
            if start + 1 < end && from < end {
                let pair = tables.settled(&row, &self.columns[end], &marks, start);
                self.replace(start, end, pair);
            }
            let pair = Pair::at(self.words, place(self.n, start, end - start));
            tables.binaries.put_row(&mut row, pair, end);
        }
    }

    /// Has the start two trees over all tokens?
    pub fn two(&self) -> bool {
        Pair::at(self.words, place(self.n, 0, self.n)).verdict() == Verdict::Two
    }
}
