//! The values set so far, in the order in which they were set.

use crate::formula::{Clause, Literal};

/// Values by levels: a level is a decision and what follows from it. Level 0 follows from nothing.
pub struct Trail {
    /// By literal: is it true, or its opposite, or neither?
    values: Vec<Option<bool>>,
    level: Vec<u32>,
    reason: Vec<Option<Clause>>,
    literals: Vec<Literal>,
    /// By level from 1 on: where it begins among the literals.
    starts: Vec<usize>,
    /// What follows from the literals before this one is set already.
    pub next: usize,
}

impl Trail {
    pub fn new(variables: usize) -> Trail {
        Trail {
            values: vec![None; 2 * variables],
            level: vec![0; variables],
            reason: vec![None; variables],
            literals: Vec::new(),
            starts: Vec::new(),
            next: 0,
        }
    }

    pub fn value(&self, literal: Literal) -> Option<bool> {
        self.values[literal.place()]
    }

    pub fn is_true(&self, literal: Literal) -> bool {
        self.value(literal) == Some(true)
    }

    pub fn is_false(&self, literal: Literal) -> bool {
        self.value(literal) == Some(false)
    }

    pub fn literals(&self) -> &[Literal] {
        &self.literals
    }

    pub fn levels(&self) -> usize {
        self.starts.len()
    }

    pub fn level(&self, literal: Literal) -> usize {
        self.level[literal.variable()] as usize
    }

    /// The clause by which the literal's variable was set; none of a decision.
    pub fn reason(&self, literal: Literal) -> Option<Clause> {
        self.reason[literal.variable()]
    }

    /// Opens a level.
    pub fn open(&mut self) {
        self.starts.push(self.literals.len());
    }

    /// Makes a literal true.
    pub fn set(&mut self, literal: Literal, reason: Option<Clause>) {
        self.values[literal.place()] = Some(true);
        self.values[(!literal).place()] = Some(false);
        self.level[literal.variable()] = self.starts.len() as u32;
        self.reason[literal.variable()] = reason;
        self.literals.push(literal);
    }

    /// Takes back the levels past this one, and says of each literal so taken back.
    pub fn close(&mut self, level: usize, mut taken: impl FnMut(Literal)) {
        let Some(&start) = self.starts.get(level) else { return };
        for &literal in self.literals[start..].iter().rev() {
            self.values[literal.place()] = None;
            self.values[(!literal).place()] = None;
            taken(literal);
        }
        self.literals.truncate(start);
        self.starts.truncate(level);
        self.next = start;
    }

    /// The values of all variables, once all are set.
    pub fn all_values(&self) -> Vec<bool> {
        (0..self.level.len()).map(|variable| self.is_true(Literal::new(variable, true))).collect()
    }
}
