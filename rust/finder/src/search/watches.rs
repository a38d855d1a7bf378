//! All clauses, and which of them to look at where a literal becomes true.

use crate::formula::{Clause, Clauses, Literal};
use crate::limits::{Limits, Stop};
use crate::search::trail::Trail;

/// Clauses to watch between two looks at the limits.
const UNLOOKED: usize = 1 << 12;

/// A clause that waits for a literal to become false, and another literal of it: where that one is
/// true the clause need not be looked at.
#[derive(Clone, Copy)]
struct Watch {
    clause: Clause,
    other: Literal,
}

/// Clauses of which two literals each are watched, the first two.
///
/// Once all that follows has been set, a watched literal is false only if the clause has a true one.
pub struct Watches {
    pub clauses: Clauses,
    /// By literal: the clauses that watch its opposite.
    lists: Vec<Vec<Watch>>,
    /// How many were gone through since someone set this to 0.
    pub gone_through: usize,
}

impl Watches {
    pub fn new(clauses: Clauses, variables: usize) -> Watches {
        Watches { clauses, lists: vec![Vec::new(); 2 * variables], gone_through: 0 }
    }

    /// Watches all clauses anew; the literals of clauses that have no other.
    pub fn renew(&mut self, limits: &Limits) -> Result<Vec<Literal>, Stop> {
        self.lists.iter_mut().for_each(Vec::clear);
        let mut alone = Vec::new();
        for (count, clause) in self.clauses.iter().enumerate() {
            if count % UNLOOKED == 0 {
                limits.look()?;
            }
            match *self.clauses.literals(clause) {
                [] => {}
                [literal] => alone.push(literal),
                [a, b, ..] => {
                    self.lists[(!a).place()].push(Watch { clause, other: b });
                    self.lists[(!b).place()].push(Watch { clause, other: a });
                }
            }
        }
        Ok(alone)
    }

    /// Adds a clause of two literals or more.
    pub fn add(&mut self, literals: &[Literal], score: usize) -> Clause {
        let clause = self.clauses.push(literals, score);
        self.lists[(!literals[0]).place()].push(Watch { clause, other: literals[1] });
        self.lists[(!literals[1]).place()].push(Watch { clause, other: literals[0] });
        clause
    }

    /// Sets all that follows; the clause that has become false, if one has.
    pub fn follow(&mut self, trail: &mut Trail) -> Option<Clause> {
        while let Some(&literal) = trail.literals().get(trail.next) {
            trail.next += 1;
            let mut list = std::mem::take(&mut self.lists[literal.place()]);
            self.gone_through += list.len();
            let conflict = self.follow_one(literal, &mut list, trail);
            self.lists[literal.place()] = list;
            if conflict.is_some() {
                return conflict;
            }
        }
        None
    }

    /// Looks at the clauses that wait for this literal, and leaves in the list those that still do.
    fn follow_one(
        &mut self,
        literal: Literal,
        list: &mut Vec<Watch>,
        trail: &mut Trail,
    ) -> Option<Clause> {
        let (mut from, mut to) = (0, 0);
        let mut conflict = None;
        while from < list.len() && conflict.is_none() {
            let watch = list[from];
            list[to] = watch;
            (from, to) = (from + 1, to + 1);
            if trail.is_true(watch.other) {
                continue;
            }
            let first = self.first_other(watch.clause, !literal);
            list[to - 1].other = first;
            if trail.is_true(first) {
                continue;
            } else if let Some(instead) = self.watch_another(watch.clause, trail) {
                to -= 1;
                self.lists[(!instead).place()].push(Watch { other: first, ..watch });
            } else if trail.is_false(first) {
                conflict = Some(watch.clause);
            } else {
                trail.set(first, Some(watch.clause));
            }
        }
        list.copy_within(from.., to);
        list.truncate(to + list.len() - from);
        conflict
    }

    /// Puts the watched literal that is false second; the other one.
    fn first_other(&mut self, clause: Clause, false_one: Literal) -> Literal {
        let literals = self.clauses.literals_mut(clause);
        if literals[0] == false_one {
            literals.swap(0, 1);
        }
        literals[0]
    }

    /// Puts a literal that is not false in the second place, where there is one.
    fn watch_another(&mut self, clause: Clause, trail: &Trail) -> Option<Literal> {
        let literals = self.clauses.literals_mut(clause);
        let place = 2 + literals[2..].iter().position(|&literal| !trail.is_false(literal))?;
        literals.swap(1, place);
        Some(literals[1])
    }
}

#[cfg(test)]
mod tests {
    use super::*;
    use std::time::Duration;

    #[test]
    fn what_follows_is_set_and_a_false_clause_is_told() {
        let [a, b, c, d] = [0, 1, 2, 3].map(|variable| Literal::new(variable, true));
        let mut clauses = Clauses::default();
        clauses.push(&[!a, b], 0);
        clauses.push(&[!a, !b, c], 0);
        clauses.push(&[d], 0);
        let mut watches = Watches::new(clauses, 4);
        let limits = Limits::new(Duration::from_secs(3600), usize::MAX);
        assert_eq!(watches.renew(&limits), Ok(vec![d]));
        let mut trail = Trail::new(4);
        trail.open();
        trail.set(a, None);
        assert_eq!(watches.follow(&mut trail), None);
        assert_eq!(trail.literals(), [a, b, c]);
        let added = watches.add(&[!c, !d], 3);
        trail.open();
        trail.set(d, None);
        let false_one = watches.follow(&mut trail);
        assert_eq!(false_one, Some(added));
        trail.close(0, |_| {});
        trail.set(!b, None);
        assert_eq!(watches.follow(&mut trail), None);
        assert_eq!(trail.literals(), [!b, !a]);
    }
}
