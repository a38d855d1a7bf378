//! The chart of a sentence, each span settled all cuts at once.

use super::chains::Chains;
use super::cuts::{Binaries, Cuts, NO_CUTS};
use super::grammar::{Rule, Token};
use super::leaves::{empty_pair, leaf_pair};
use super::marks::{Half, Marks};
use super::spans::{place, Pair};

/// What is made of the rules once a call.
pub struct Tables {
    pub empty: Pair,
    pub binaries: Binaries,
    chains: Chains,
}

impl Tables {
    pub fn of(rules: &[Rule]) -> Tables {
        let empty = empty_pair(rules);
        Tables { empty, binaries: Binaries::of(rules), chains: Chains::of(rules, empty) }
    }

    /// The pair of a span of two tokens or more: what stands by two shorter
    /// parts, then its chains.
    pub fn settled(&self, row: &Cuts, column: &Cuts, marks: &Marks, start: usize) -> Pair {
        let inner = self.binaries.splits(row, column, &marks.cuts(start));
        self.chains.unite(marks.level(), inner)
    }
}

/// The pairs of the tokens, worked out once a terminal.
pub fn leaf_pairs(rules: &[Rule], tokens: &[Token], empty: Pair) -> Vec<Pair> {
    let mut known = [None; 64];
    let pair = |token: &Token| {
        *known[usize::from(token.terminal)]
            .get_or_insert_with(|| leaf_pair(rules, token.terminal, empty))
    };
    tokens.iter().map(pair).collect()
}

/// Fill the span sheet of a sentence.
pub fn fill(words: &mut [u64], rules: &[Rule], tokens: &[Token]) {
    fill_by::<false>(words, rules, tokens);
}

/// The same, with each span's tokens walked for its marks.
pub fn fill_walked(words: &mut [u64], rules: &[Rule], tokens: &[Token]) {
    fill_by::<true>(words, rules, tokens);
}

fn fill_by<const WALKED: bool>(words: &mut [u64], rules: &[Rule], tokens: &[Token]) {
    let (n, tables) = (tokens.len(), Tables::of(rules));
    tables.empty.put(words, 0);
    let leaves = leaf_pairs(rules, tokens, tables.empty);
    let mut columns = vec![NO_CUTS; n + 1];
    for start in (0..n).rev() {
        leaves[start].put(words, place(n, start, 1));
        fill_start::<WALKED>(words, &mut columns, &tables, tokens, leaves[start], start);
    }
}

/// Fill the pairs of the spans of two tokens or more that begin at `start`, by
/// growing length. Their marks are carried along, or walked anew for each.
fn fill_start<const WALKED: bool>(
    words: &mut [u64],
    columns: &mut [Cuts],
    tables: &Tables,
    tokens: &[Token],
    leaf: Pair,
    start: usize,
) {
    let n = tokens.len();
    let sentence = Half { tokens, known: n };
    let binaries = &tables.binaries;
    let mut row = NO_CUTS;
    let mut marks = Marks::of(tokens[start].column);
    binaries.put_row(&mut row, leaf, start + 1);
    binaries.put_column(&mut columns[start + 1], leaf, start);
    for end in start + 2..=n {
        if WALKED {
            marks = Marks::walked(&sentence, start, end - start);
        } else {
            marks.grow(&sentence, start, end - 1 - start);
        }
        let pair = tables.settled(&row, &columns[end], &marks, start);
        pair.put(words, place(n, start, end - start));
        binaries.put_row(&mut row, pair, end);
        binaries.put_column(&mut columns[end], pair, start);
    }
}
