//! Clauses over variables that are true or false.

use std::ops::Not;

/// A variable or its opposite.
#[derive(Clone, Copy, Debug, PartialEq, Eq, PartialOrd, Ord)]
pub struct Literal(u32);

impl Literal {
    /// Variable 0, which is true.
    pub const TRUE: Literal = Literal(0);
    pub const FALSE: Literal = Literal(1);

    /// The variable itself, or its opposite.
    pub fn new(variable: usize, positive: bool) -> Literal {
        let variable = u32::try_from(variable).expect("memory ends before 2^31 variables");
        Literal(2 * variable + u32::from(!positive))
    }

    pub fn variable(self) -> usize {
        self.0 as usize / 2
    }

    pub fn is_positive(self) -> bool {
        self.0 & 1 == 0
    }

    /// Twice the variable, and one more of its opposite: a place in lists by literal.
    pub fn place(self) -> usize {
        self.0 as usize
    }
}

impl Not for Literal {
    type Output = Literal;

    fn not(self) -> Literal {
        Literal(self.0 ^ 1)
    }
}

/// Where a clause stands among all.
#[derive(Clone, Copy, Debug, PartialEq, Eq)]
pub struct Clause(u32);

/// The greatest score of a learned clause; 0 is the score of a given one.
pub const MOST_SCORE: usize = 255;

/// Clauses one behind the other: a head with the clause's length and score, then its literals.
#[derive(Default)]
pub struct Clauses(Vec<Literal>);

impl Clauses {
    pub fn push(&mut self, literals: &[Literal], score: usize) -> Clause {
        let at = u32::try_from(self.0.len()).expect("memory ends before 2^32 literals");
        let length = u32::try_from(literals.len()).expect("no clause is so long");
        assert!(length < 1 << 24, "a head has 24 bits for the length");
        self.0.push(Literal(length << 8 | score.min(MOST_SCORE) as u32));
        self.0.extend_from_slice(literals);
        Clause(at)
    }

    pub fn literals(&self, clause: Clause) -> &[Literal] {
        let start = clause.0 as usize + 1;
        &self.0[start..start + self.length(clause)]
    }

    pub fn literals_mut(&mut self, clause: Clause) -> &mut [Literal] {
        let start = clause.0 as usize + 1;
        let length = self.length(clause);
        &mut self.0[start..start + length]
    }

    fn length(&self, clause: Clause) -> usize {
        (self.0[clause.0 as usize].0 >> 8) as usize
    }

    /// 0 of a given clause, more of a learned one; the lesser, the more it is worth.
    pub fn score(&self, clause: Clause) -> usize {
        (self.0[clause.0 as usize].0 & 255) as usize
    }

    /// All clauses in their order.
    pub fn iter(&self) -> impl Iterator<Item = Clause> + '_ {
        let mut next = 0;
        std::iter::from_fn(move || {
            let clause = Clause(u32::try_from(next).ok()?);
            next += 1 + self.0.get(next).map(|head| (head.0 >> 8) as usize)?;
            Some(clause)
        })
    }

    /// Leaves out the clauses that are not to be kept, and moves the others up.
    pub fn retain(&mut self, mut kept: impl FnMut(&Clauses, Clause) -> bool) {
        let (mut from, mut to) = (0, 0);
        while from < self.0.len() {
            let clause = Clause(from as u32);
            let after = from + 1 + self.length(clause);
            if kept(self, clause) {
                self.0.copy_within(from..after, to);
                to += after - from;
            }
            from = after;
        }
        self.0.truncate(to);
    }
}

/// Clauses that are to hold, and what a search may know of their variables.
pub struct Formula {
    pub clauses: Clauses,
    /// By variable: the value to try first.
    pub likely: Vec<bool>,
    /// Variables to decide on first.
    pub early: Vec<usize>,
    /// Is there a clause of no literals?
    pub impossible: bool,
}

impl Formula {
    pub fn new() -> Formula {
        let (likely, early) = (vec![true], Vec::new());
        let mut clauses = Clauses::default();
        clauses.push(&[Literal::TRUE], 0);
        Formula { clauses, likely, early, impossible: false }
    }

    /// A new variable, with the value to try first.
    pub fn variable(&mut self, likely: bool) -> Literal {
        self.likely.push(likely);
        Literal::new(self.likely.len() - 1, true)
    }

    /// One of these is true.
    pub fn clause(&mut self, literals: &[Literal]) {
        let mut open: Vec<Literal> =
            literals.iter().copied().filter(|&literal| literal != Literal::FALSE).collect();
        open.sort_unstable();
        open.dedup();
        // a literal and its opposite stand side by side
        if open.first() == Some(&Literal::TRUE) || open.windows(2).any(|two| two[1] == !two[0]) {
            return;
        }
        self.impossible |= open.is_empty();
        self.clauses.push(&open, 0);
    }

    /// Where `reason` is true, one of these is.
    pub fn implies(&mut self, reason: Literal, literals: &[Literal]) {
        let mut clause = vec![!reason];
        clause.extend_from_slice(literals);
        self.clause(&clause);
    }

    /// A literal that is true only where all of these are; the other direction is not asked for.
    pub fn all(&mut self, literals: &[Literal]) -> Literal {
        let mut open: Vec<Literal> = Vec::new();
        for &literal in literals {
            if literal == Literal::FALSE {
                return literal;
            } else if literal != Literal::TRUE && !open.contains(&literal) {
                open.push(literal);
            }
        }
        match open[..] {
            [] => Literal::TRUE,
            [one] => one,
            _ => {
                let all = self.variable(false);
                open.iter().for_each(|&each| self.implies(all, &[each]));
                all
            }
        }
    }

    /// A literal that is true only where one of these is.
    pub fn some(&mut self, literals: &[Literal]) -> Literal {
        match literals {
            [] => Literal::FALSE,
            [one] => *one,
            _ if literals.contains(&Literal::TRUE) => Literal::TRUE,
            _ => {
                let some = self.variable(false);
                self.implies(some, literals);
                some
            }
        }
    }
}

#[cfg(test)]
mod tests {
    use super::*;

    fn shown(formula: &Formula) -> Vec<&[Literal]> {
        formula.clauses.iter().skip(1).map(|clause| formula.clauses.literals(clause)).collect()
    }

    #[test]
    fn clauses_are_made_plain() {
        let mut formula = Formula::new();
        let (a, b) = (formula.variable(false), formula.variable(true));
        formula.clause(&[b, a, Literal::FALSE, b]);
        formula.clause(&[a, !a, b]);
        formula.clause(&[a, Literal::TRUE]);
        assert_eq!(shown(&formula), [[a, b]]);
        assert!(!formula.impossible);
        formula.clause(&[Literal::FALSE]);
        assert!(formula.impossible);
    }

    #[test]
    fn all_and_some_need_a_variable_only_where_two_are_open() {
        let mut formula = Formula::new();
        let (a, b) = (formula.variable(false), formula.variable(false));
        let (yes, no) = (Literal::TRUE, Literal::FALSE);
        assert_eq!(
            [formula.all(&[]), formula.all(&[a, yes, a]), formula.all(&[a, no])],
            [yes, a, no]
        );
        assert_eq!([formula.some(&[]), formula.some(&[b]), formula.some(&[a, yes])], [no, b, yes]);
        let all = formula.all(&[a, b]);
        let some = formula.some(&[a, b]);
        assert_eq!(shown(&formula), [&[a, !all][..], &[b, !all], &[a, b, !some]]);
    }

    #[test]
    fn clauses_move_up_where_others_go() {
        let mut clauses = Clauses::default();
        let literals: Vec<Literal> = (0..6).map(|n| Literal::new(n, n % 2 == 0)).collect();
        for length in 1..=6 {
            clauses.push(&literals[..length], length);
        }
        clauses.retain(|all, clause| all.score(clause) % 2 == 1);
        let left: Vec<_> = clauses.iter().map(|clause| clauses.literals(clause)).collect();
        assert_eq!(left, [&literals[..1], &literals[..3], &literals[..5]]);
    }
}
