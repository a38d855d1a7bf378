//! What is learned from a clause that has become false.

use crate::formula::{Clause, Clauses, Literal};
use crate::search::order::Order;
use crate::search::trail::Trail;

/// A clause that follows from the others and would have set its first literal earlier.
pub struct Lesson {
    pub literals: Vec<Literal>,
    /// The level at which all but the first literal are false already.
    pub level: usize,
    /// How many levels its literals are of: the fewer, the more it is worth.
    pub score: usize,
}

/// Marks of variables, cleared after each lesson.
pub struct Seen {
    seen: Vec<bool>,
    marked: Vec<usize>,
}

impl Seen {
    pub fn new(variables: usize) -> Seen {
        Seen { seen: vec![false; variables], marked: Vec::new() }
    }

    fn has(&self, literal: Literal) -> bool {
        self.seen[literal.variable()]
    }

    /// Marks the literal's variable; was it unmarked?
    fn mark(&mut self, literal: Literal) -> bool {
        let new = !self.has(literal);
        if new {
            self.seen[literal.variable()] = true;
            self.marked.push(literal.variable());
        }
        new
    }

    /// Takes back all marks past the first so many.
    fn clear(&mut self, kept: usize) {
        for variable in self.marked.drain(kept..) {
            self.seen[variable] = false;
        }
    }
}

/// What a conflict is looked at with.
pub struct Conflict<'a> {
    pub clauses: &'a Clauses,
    pub trail: &'a Trail,
    pub order: &'a mut Order,
    pub seen: &'a mut Seen,
}

impl Conflict<'_> {
    /// The lesson of a clause that is false at the last level, which is not 0.
    pub fn lesson(&mut self, conflict: Clause) -> Lesson {
        let mut literals = self.first_alone(conflict);
        let own: Vec<Literal> = literals.drain(1..).collect();
        literals.extend(own.into_iter().filter(|&literal| !self.is_implied(literal)));
        self.seen.clear(0);
        let mut levels: Vec<usize> = literals.iter().map(|&it| self.trail.level(it)).collect();
        // the literal of the latest level comes second, where it is watched
        let latest = (1..literals.len()).max_by_key(|&place| (levels[place], usize::MAX - place));
        let level = latest.map_or(0, |place| levels[place]);
        if let Some(place) = latest {
            literals.swap(1, place);
        }
        levels.sort_unstable();
        levels.dedup();
        Lesson { literals, level, score: levels.len() }
    }

    /// Goes back along the trail and puts reasons in place of literals of the last level, until one
    /// of them is left; it comes first, its opposite being what all of the conflict goes through.
    fn first_alone(&mut self, conflict: Clause) -> Vec<Literal> {
        let mut literals = vec![Literal::TRUE];
        let mut trail = self.trail.literals().iter().rev();
        let (mut clause, mut open) = (conflict, 0);
        loop {
            for &literal in self.clauses.literals(clause) {
                if self.trail.level(literal) == 0 || !self.seen.mark(literal) {
                    continue;
                }
                self.order.bump(literal.variable());
                if self.trail.level(literal) == self.trail.levels() {
                    open += 1;
                } else {
                    literals.push(literal);
                }
            }
            let met = *trail.find(|&&it| self.seen.has(it)).expect("an open literal is left");
            open -= 1;
            if open == 0 {
                literals[0] = !met;
                return literals;
            }
            clause = self.trail.reason(met).expect("only the first of a level has no reason");
        }
    }

    /// Is a literal of the lesson false by others of it alone? What is found so stays marked, so
    /// that it is not gone through again.
    fn is_implied(&mut self, literal: Literal) -> bool {
        let kept = self.seen.marked.len();
        let mut waiting = vec![literal];
        while let Some(literal) = waiting.pop() {
            let Some(reason) = self.trail.reason(literal) else {
                self.seen.clear(kept);
                return false;
            };
            for &other in self.clauses.literals(reason) {
                if self.trail.level(other) > 0 && self.seen.mark(other) {
                    waiting.push(other);
                }
            }
        }
        true
    }
}
