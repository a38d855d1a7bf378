//! The sweep over all short sentences.

use super::chart::Tables;
use super::grammar::{has, Clause, Column, Line, Rule, Token, Width};
use super::half_chart::HalfChart;
use super::leaves::leaf_pair;
use super::marks::Half;
use super::spans::Pair;
use super::Swept;

/// The most tokens of a candidate.
const MOST: usize = 7;

/// The largest step from a token's line to the next one's.
const LARGEST_STEP: u8 = 2;

/// The most arrangements that a sweep takes on.
const LIMIT: u64 = 4_294_967_296;

/// The terminals of the A rules.
pub fn terminals(rules: &[Rule]) -> u64 {
    rules.iter().fold(0, |set, rule| match rule.clause {
        Clause::Atom(a, b) => (a..=b).fold(set, |set, terminal| set | 1 << terminal),
        _ => set,
    })
}

/// The terminals without those that a lesser one can stand for: one whose A
/// rules have every left that theirs have. With the lesser one in its place a
/// candidate comes earlier and has no fewer trees, so that the first candidate
/// with two trees has none of those left out.
pub fn needed(rules: &[Rule]) -> u64 {
    let mut lefts = [0u64; 64];
    for rule in rules {
        if let Clause::Atom(a, b) = rule.clause {
            for terminal in a..=b {
                lefts[usize::from(terminal)] |= 1 << rule.left;
            }
        }
    }
    let stands_in = |s: usize, t: usize| lefts[t] & !lefts[s] == 0;
    (0..64)
        .filter(|&t| lefts[t] != 0 && !(0..t).any(|s| stands_in(s, t)))
        .fold(0, |set, t| set | 1 << t)
}

/// T^k * 3^(k-1) * k^k, or the largest number where that is past 64 bits.
pub fn arrangements(t: u64, k: u64) -> u64 {
    let others = (3 * t * k).saturating_pow(k as u32 - 1);
    others.saturating_mul(t * k)
}

pub fn within_limit(t: u64, k: u64) -> bool {
    arrangements(t, k) <= LIMIT
}

/// A token of a candidate.
#[derive(Clone, Copy)]
struct Cell {
    terminal: u8,
    /// Lines past the token before, 0 for the first.
    step: u8,
    column: u16,
}

/// A candidate of `n` tokens over a set of terminals that is not empty.
#[derive(Clone, Copy)]
struct Candidate {
    terminals: u64,
    n: usize,
    cells: [Cell; MOST],
}

impl Candidate {
    /// The first candidate of a length.
    fn first(terminals: u64, n: usize) -> Candidate {
        let cells = [Cell { terminal: 0, step: 0, column: 0 }; MOST];
        let mut candidate = Candidate { terminals, n, cells };
        candidate.least_from(0);
        candidate
    }

    /// The column of the token before i, 0 for the first.
    fn column_before(&self, i: usize) -> u16 {
        match i {
            0 => 0,
            _ => self.cells[i - 1].column,
        }
    }

    /// The least cell at i with this terminal.
    fn least(&self, i: usize, terminal: u8) -> Cell {
        let before = self.column_before(i);
        if usize::from(before) < self.n {
            Cell { terminal, step: 0, column: before + 1 }
        } else {
            Cell { terminal, step: 1, column: 1 }
        }
    }

    /// Set the cells from i on to the least.
    fn least_from(&mut self, i: usize) {
        let low = self.terminals.trailing_zeros() as u8;
        for j in i..self.n {
            self.cells[j] = self.least(j, low);
        }
    }

    /// The next cell at i after the same cells, if there is one.
    fn next_cell(&self, i: usize) -> Option<Cell> {
        let Cell { terminal, step, column } = self.cells[i];
        let most = if i == 0 { 0 } else { LARGEST_STEP };
        if usize::from(column) < self.n {
            return Some(Cell { terminal, step, column: column + 1 });
        }
        if step < most {
            return Some(Cell { terminal, step: step + 1, column: 1 });
        }
        let later = self.terminals & (u64::MAX - 1) << terminal;
        (later != 0).then(|| self.least(i, later.trailing_zeros() as u8))
    }

    /// Move to the least candidate past all that share the first `b` cells.
    /// Answers how many cells are now to be looked at: those up to the first
    /// that changed.
    fn move_past(&mut self, b: usize) -> Option<usize> {
        for i in (0..b).rev() {
            if let Some(cell) = self.next_cell(i) {
                self.cells[i] = cell;
                self.least_from(i + 1);
                return Some(i + 1);
            }
        }
        None
    }

    /// Does each candidate that shares the first `b` cells read like an earlier
    /// one? A step of two lines does, and so do more gaps between the columns
    /// than cells to come.
    fn stale(&self, b: usize) -> bool {
        if b == 0 {
            return false;
        }
        self.cells[b - 1].step == 2 || self.n - b < self.gaps(b)
    }

    /// Does the cell at i come after the one before?
    fn rises(&self, i: usize) -> bool {
        let Cell { step, column, .. } = self.cells[i];
        if step == 0 {
            self.column_before(i) < column
        } else {
            i != 0
        }
    }

    /// The tokens, from line 1 on.
    fn tokens(&self) -> [Token; MOST] {
        let mut line = 1;
        self.cells.map(|Cell { terminal, step, column }| {
            line += u16::from(step);
            Token { terminal, line: Line(line), column: Column(column), width: Width(1) }
        })
    }

    /// How many columns up to the greatest the first `b` cells leave out.
    fn gaps(&self, b: usize) -> usize {
        let used = self.cells[..b].iter().fold(0u8, |set, cell| set | 1 << cell.column);
        (used.ilog2() - used.count_ones()) as usize
    }
}

/// The terminals that are tried, the pair of each, and that of a token that may
/// have any.
struct Leaves {
    terminals: u64,
    pairs: [Pair; 64],
    any: Pair,
}

impl Leaves {
    fn of(rules: &[Rule], terminals: u64, empty: Pair) -> Leaves {
        let (mut pairs, mut any) = ([Pair::default(); 64], Pair::default());
        for x in (0..64).filter(|&x| has(terminals, x)) {
            let pair = leaf_pair(rules, x, empty);
            pairs[usize::from(x)] = pair;
            any = any.with(pair);
        }
        Leaves { terminals, pairs, any }
    }
}

/// What a block of candidates is refuted with, and how often a chart was filled.
struct Refuter<'a> {
    leaves: &'a Leaves,
    chart: HalfChart<'a>,
    fills: u64,
    most_fills: u64,
}

impl Refuter<'_> {
    /// Fill the chart for the candidate, whose first `known` tokens count, but
    /// for the spans that end at or before the token `from` or begin at or past
    /// the token `to`. Has none of its completions two trees?
    fn hopeless(&mut self, candidate: &Candidate, known: usize, from: usize, to: usize) -> bool {
        let tokens = candidate.tokens();
        let sentence = Half { tokens: &tokens[..candidate.n], known };
        self.chart.fill(&sentence, from, to);
        self.fills += 1;
        !self.chart.two()
    }

    /// Fill the chart for the candidate's first `b` cells, all others being open.
    fn begin(&mut self, candidate: &Candidate, b: usize) {
        let n = candidate.n;
        for (i, cell) in candidate.cells[..n].iter().enumerate() {
            let known = self.leaves.pairs[usize::from(cell.terminal)];
            self.chart.give(i, if i < b { known } else { self.leaves.any });
        }
        self.hopeless(candidate, b, 0, n);
    }

    /// From a candidate on, the first with two trees. Given up, none is found.
    fn first(&mut self, mut candidate: Candidate) -> Option<Vec<Token>> {
        let (n, mut b) = (candidate.n, 0);
        while self.fills < self.most_fills {
            if self.look(&candidate, b) {
                b = candidate.move_past(b)?;
            } else if b == n {
                return Some(candidate.tokens()[..n].to_vec());
            } else {
                b += 1;
            }
        }
        None
    }

    /// Is none of the candidates that share the first `b` cells the first with
    /// two trees? Where all cells are known: has this one not?
    fn look(&mut self, candidate: &Candidate, b: usize) -> bool {
        if candidate.stale(b) {
            return true;
        }
        self.begin(candidate, b);
        if b == candidate.n {
            return !self.chart.two();
        }
        !self.terms(candidate, b, candidate.n)
    }

    /// Terminals, from the last token backward to token `b`, all positions from
    /// `b` on being open: is a candidate that has the first `b` cells, and the
    /// terminals from `j` on, perhaps the first with two trees?
    fn terms(&mut self, candidate: &Candidate, b: usize, j: usize) -> bool {
        if j == b {
            return self.positions(candidate, b);
        }
        let (i, leaves) = (j - 1, self.leaves);
        for x in (0..64).filter(|&x| has(leaves.terminals, x)) {
            let mut turned = *candidate;
            turned.cells[i].terminal = x;
            self.chart.give(i, leaves.pairs[usize::from(x)]);
            if !self.hopeless(&turned, b, b, j) && self.terms(&turned, b, i) {
                return true;
            }
        }
        self.chart.give(i, leaves.any);
        false
    }

    /// Positions, all terminals being fixed. Where all are refuted, the spans of
    /// tokens from `b` on are filled for open positions again.
    fn positions(&mut self, candidate: &Candidate, b: usize) -> bool {
        if self.places(candidate, b) {
            return true;
        }
        self.hopeless(candidate, b, b, candidate.n);
        false
    }

    /// Positions from token `i` on. Given up, it answers yes.
    fn places(&mut self, candidate: &Candidate, i: usize) -> bool {
        if i == candidate.n || self.fills >= self.most_fills {
            return true;
        }
        for step in 0..=LARGEST_STEP {
            for column in 1..=candidate.n as u16 {
                let mut moved = *candidate;
                moved.cells[i].step = step;
                moved.cells[i].column = column;
                let shut = !moved.rises(i)
                    || moved.stale(i + 1)
                    || self.hopeless(&moved, i + 1, i, candidate.n);
                if !shut && self.places(&moved, i + 1) {
                    return true;
                }
            }
        }
        false
    }
}

/// The first candidate of 1 to `bound` tokens over these terminals that has two
/// trees, given up after about `most_fills` fills of a chart. Lengths that are
/// not in the set are passed over. The candidates tried are not counted here.
pub fn search(
    rules: &[Rule],
    terminals: u64,
    lengths: u8,
    bound: usize,
    words: &mut [u64],
    most_fills: u64,
) -> Swept {
    let tables = Tables::of(rules);
    let leaves = Leaves::of(rules, terminals, tables.empty);
    // Without terminals there are no candidates.
    let longest = if terminals == 0 { 0 } else { bound };
    let mut fills = 0;
    for n in (1..=longest).filter(|n| lengths >> n & 1 == 1) {
        let chart = HalfChart::new(&tables, n, words);
        let mut refuter = Refuter { leaves: &leaves, chart, fills, most_fills };
        let found = refuter.first(Candidate::first(terminals, n));
        fills = refuter.fills;
        if found.is_some() {
            return Swept { found, fills, finished: true, tried: 0 };
        }
    }
    Swept { found: None, fills, finished: fills < most_fills, tried: 0 }
}
