//! All cuts of a span at once: which rules stand over it by two shorter parts,
//! by words that have a bit a cut.

use super::chains::members;
use super::grammar::{BinaryMark, Clause, Rule};
use super::spans::Pair;

/// For each nonterminal the cuts at which it has a tree, and two: of a start by
/// the ends of its spans, of an end by their starts.
pub type Cuts = [Pair; 64];

pub const NO_CUTS: Cuts = [Pair { one: 0, two: 0 }; 64];

#[derive(Clone, Copy)]
struct Binary {
    left: u8,
    first: u8,
    second: u8,
    mark: u8,
}

/// The B rules, and the nonterminals that stand first or second in one: no
/// others are looked up by their cuts.
pub struct Binaries {
    rules: Vec<Binary>,
    firsts: u64,
    seconds: u64,
}

impl Binaries {
    pub fn of(rules: &[Rule]) -> Binaries {
        let mut binaries = Binaries { rules: Vec::new(), firsts: 0, seconds: 0 };
        for rule in rules {
            if let Clause::Binary(first, second, mark) = rule.clause {
                let mark = match mark {
                    BinaryMark::None => 0,
                    BinaryMark::Align => 1,
                    BinaryMark::Indent => 2,
                };
                binaries.rules.push(Binary { left: rule.left, first, second, mark });
                binaries.firsts |= 1 << first;
                binaries.seconds |= 1 << second;
            }
        }
        binaries
    }

    /// What stands over a span: `row` has the cuts of its start, `column` those
    /// of its end, `marked` those at which each mark holds.
    pub fn splits(&self, row: &Cuts, column: &Cuts, marked: &[u64; 3]) -> Pair {
        let mut pair = Pair::default();
        for rule in &self.rules {
            let bit = 1u64 << rule.left;
            // What has two trees needs no more.
            if pair.two & bit != 0 {
                continue;
            }
            let (first, second) = (row[usize::from(rule.first)], column[usize::from(rule.second)]);
            let hits = first.one & second.one & marked[usize::from(rule.mark)];
            if hits == 0 {
                continue;
            }
            let again = hits & (hits - 1) | hits & (first.two | second.two);
            pair.two |= if again != 0 { bit } else { pair.one & bit };
            pair.one |= bit;
        }
        pair
    }

    /// Put a span's pair into the row of its start. Cut 64 has no bit: no span
    /// begins there.
    pub fn put_row(&self, row: &mut Cuts, pair: Pair, end: usize) {
        if end < 64 {
            put(row, pair, self.firsts, 1 << end);
        }
    }

    /// Put it into the column of its end.
    pub fn put_column(&self, column: &mut Cuts, pair: Pair, start: usize) {
        put(column, pair, self.seconds, 1 << start);
    }

    /// Turn over what has changed in a span's pair in the row of its start.
    pub fn turn_row(&self, row: &mut Cuts, changed: Pair, end: usize) {
        if end < 64 {
            turn(row, changed, self.firsts, 1 << end);
        }
    }

    /// And in the column of its end.
    pub fn turn_column(&self, column: &mut Cuts, changed: Pair, start: usize) {
        turn(column, changed, self.seconds, 1 << start);
    }
}

fn put(cuts: &mut Cuts, pair: Pair, only: u64, bit: u64) {
    members(pair.one & only).for_each(|a| cuts[a].one |= bit);
    members(pair.two & only).for_each(|a| cuts[a].two |= bit);
}

fn turn(cuts: &mut Cuts, changed: Pair, only: u64, bit: u64) {
    members(changed.one & only).for_each(|a| cuts[a].one ^= bit);
    members(changed.two & only).for_each(|a| cuts[a].two ^= bit);
}
