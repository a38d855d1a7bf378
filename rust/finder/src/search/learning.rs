//! The built-in search: it decides, follows what must be, and learns a clause from each conflict.

use crate::formula::{Clause, Clauses, Formula, Literal};
use crate::limits::{Limits, Stop};
use crate::search::conflict::{Conflict, Lesson, Seen};
use crate::search::order::Order;
use crate::search::trail::Trail;
use crate::search::watches::Watches;
use crate::search::{Model, Search};

/// Conflicts of the shortest run between two restarts.
const RUN: u64 = 64;

/// Watches to go through between two looks at the limits: some tenths of a millisecond.
const UNLOOKED: usize = 1 << 15;

/// Learned clauses to keep before the first are freed.
const LEARNED: usize = 4000;

/// Bytes that a variable takes, its two lists of watches included while they are empty.
const VARIABLE: usize = 96;

/// Learned clauses of so few levels are kept whatever there is besides.
const KEPT_SCORE: usize = 2;

/// The search and all that it has learned.
pub struct Learning {
    watches: Watches,
    trail: Trail,
    order: Order,
    /// By variable: the value that it had last, or is likely to have.
    likely: Vec<bool>,
    seen: Seen,
    learned: usize,
    most_learned: usize,
    impossible: bool,
}

impl Learning {
    /// Takes over the formula's clauses.
    pub fn new(formula: Formula, limits: &Limits) -> Result<Learning, Stop> {
        let variables = formula.likely.len();
        limits.allow(VARIABLE * variables)?;
        let mut search = Learning {
            watches: Watches::new(formula.clauses, variables),
            trail: Trail::new(variables),
            order: Order::new(variables, &formula.early),
            likely: formula.likely,
            seen: Seen::new(variables),
            learned: 0,
            most_learned: LEARNED,
            impossible: formula.impossible,
        };
        for literal in search.watches.renew(limits)? {
            search.impossible |= search.trail.is_false(literal);
            if search.trail.value(literal).is_none() {
                search.trail.set(literal, None);
            }
        }
        Ok(search)
    }

    /// Takes back the levels past this one, and remembers the values.
    fn back(&mut self, level: usize) {
        let Learning { trail, likely, order, .. } = self;
        trail.close(level, |literal| {
            likely[literal.variable()] = literal.is_positive();
            order.put(literal.variable());
        });
    }

    /// Learns from a false clause, and sets what the lesson says; nothing where it is of level 0.
    fn learn(&mut self, conflict: Clause) -> bool {
        if self.trail.levels() == 0 {
            return false;
        }
        let Learning { watches, trail, order, seen, .. } = self;
        let mut look = Conflict { clauses: &watches.clauses, trail, order, seen };
        let Lesson { literals, level, score } = look.lesson(conflict);
        self.back(level);
        self.order.grow();
        let reason = (literals.len() > 1).then(|| self.watches.add(&literals, score));
        self.learned += usize::from(reason.is_some());
        self.trail.set(literals[0], reason);
        true
    }

    /// Frees the half of the learned clauses that is worth least. To be asked at level 0, where all
    /// has been followed: there no reason is looked at any more, and the two watched literals of a
    /// clause are still its first.
    fn free(&mut self, limits: &Limits) -> Result<(), Stop> {
        let worth = |clauses: &Clauses, clause: Clause| {
            (clauses.score(clause), clauses.literals(clause).len())
        };
        let clauses = &mut self.watches.clauses;
        let learned = clauses.iter().filter(|&it| clauses.score(it) > 0);
        let mut worths: Vec<_> = learned.map(|clause| worth(clauses, clause)).collect();
        worths.sort_unstable();
        let Some(&middle) = worths.get(worths.len() / 2) else { return Ok(()) };
        clauses.retain(|all, it| all.score(it) <= KEPT_SCORE || worth(all, it) < middle);
        self.learned = clauses.iter().filter(|&it| clauses.score(it) > 0).count();
        self.most_learned = (self.most_learned + self.most_learned / 10).max(2 * self.learned);
        // clauses of one literal have set it long ago
        self.watches.renew(limits).map(drop)
    }

    /// The next literal to decide on: an assumed one, else the most active variable's. An error
    /// where an assumed one is false already, none where all variables are set.
    fn decision(&mut self, assumed: &[Literal]) -> Result<Option<Literal>, Literal> {
        while let Some(&literal) = assumed.get(self.trail.levels()) {
            match self.trail.value(literal) {
                Some(true) => self.trail.open(),
                Some(false) => return Err(literal),
                None => return Ok(Some(literal)),
            }
        }
        while let Some(variable) = self.order.pop() {
            let literal = Literal::new(variable, self.likely[variable]);
            if self.trail.value(literal).is_none() {
                return Ok(Some(literal));
            }
        }
        Ok(None)
    }

    /// Searches until so many conflicts are met; some answer where it is decided.
    fn run(
        &mut self,
        assumed: &[Literal],
        conflicts: u64,
        limits: &mut Limits,
    ) -> Result<Option<Option<Model>>, Stop> {
        let mut met = 0;
        loop {
            if let Some(conflict) = self.watches.follow(&mut self.trail) {
                met += 1;
                if !self.learn(conflict) {
                    self.impossible = true;
                    return Ok(Some(None));
                }
                limits.conflict()?;
                continue;
            }
            if self.watches.gone_through > UNLOOKED {
                self.watches.gone_through = 0;
                limits.look()?;
            }
            if met >= conflicts || self.learned > self.most_learned {
                return Ok(None);
            }
            let Ok(decision) = self.decision(assumed) else { return Ok(Some(None)) };
            let Some(literal) = decision else {
                return Ok(Some(Some(Model::new(self.trail.all_values()))));
            };
            self.trail.open();
            self.trail.set(literal, None);
        }
    }

    /// Runs and restarts until it is decided.
    fn decide(&mut self, assumed: &[Literal], limits: &mut Limits) -> Result<Option<Model>, Stop> {
        let mut restarts = 0;
        loop {
            if let Some(decided) = self.run(assumed, RUN * luby(restarts), limits)? {
                return Ok(decided);
            }
            restarts += 1;
            self.back(0);
            if self.learned > self.most_learned {
                self.free(limits)?;
            }
        }
    }
}

impl Search for Learning {
    fn solve(&mut self, assumed: &[Literal], limits: &mut Limits) -> Result<Option<Model>, Stop> {
        limits.look()?;
        if self.impossible {
            return Ok(None);
        }
        let decided = self.decide(assumed, limits);
        self.back(0);
        decided
    }
}

/// 1 1 2 1 1 2 4 1 1 2 1 1 2 4 8 ..: long runs are rare, and no length of run is left out.
fn luby(place: u64) -> u64 {
    let mut place = place + 1;
    loop {
        let whole = (place + 1).next_power_of_two();
        if whole == place + 1 {
            return whole / 2;
        }
        place -= whole / 2 - 1;
    }
}

#[cfg(test)]
mod tests {
    use super::*;
    use std::time::Duration;

    fn limits() -> Limits {
        Limits::new(Duration::from_secs(3600), usize::MAX)
    }

    /// Numbers that look like chance and are the same each time.
    fn chance(seed: u64) -> impl FnMut(usize) -> usize {
        let mut state = seed;
        move |below| {
            state = state.wrapping_mul(6364136223846793005).wrapping_add(1442695040888963407);
            (state >> 33) as usize % below
        }
    }

    /// Clauses of three literals over so many variables, beside variable 0.
    fn drawn(seed: u64, variables: usize, clauses: usize) -> Vec<Vec<Literal>> {
        let mut chance = chance(seed);
        let mut literal = || Literal::new(1 + chance(variables), chance(2) == 1);
        (0..clauses).map(|_| (0..3).map(|_| literal()).collect()).collect()
    }

    fn formula(variables: usize, clauses: &[Vec<Literal>]) -> Formula {
        let mut formula = Formula::new();
        for _ in 0..variables {
            formula.variable(false);
        }
        clauses.iter().for_each(|clause| formula.clause(clause));
        formula
    }

    /// Some values under which all clauses and the assumed literals hold, by trying all.
    fn tried(variables: usize, clauses: &[Vec<Literal>], assumed: &[Literal]) -> bool {
        (0..1_u32 << variables).any(|bits| {
            let holds = |it: &Literal| (bits >> (it.variable() - 1) & 1 == 1) == it.is_positive();
            assumed.iter().all(holds) && clauses.iter().all(|clause| clause.iter().any(holds))
        })
    }

    #[test]
    fn it_agrees_with_trying_all_values() {
        let mut counts = [0; 2];
        for seed in 0..400 {
            let clauses = drawn(seed, 9, 30 + seed as usize % 20);
            let mut search = Learning::new(formula(9, &clauses), &limits()).unwrap();
            for assumed in drawn(seed + 1000, 9, 3) {
                let found = search.solve(&assumed, &mut limits()).unwrap();
                assert_eq!(found.is_some(), tried(9, &clauses, &assumed), "{seed}");
                counts[usize::from(found.is_some())] += 1;
                let Some(model) = found else { continue };
                assert!(assumed.iter().all(|&it| model.holds(it)));
                assert!(clauses.iter().all(|clause| clause.iter().any(|&it| model.holds(it))));
            }
        }
        assert!(counts.iter().all(|&count| count > 100), "{counts:?}");
    }

    /// One more pigeon than holes.
    fn pigeons(holes: usize) -> Formula {
        let mut formula = Formula::new();
        let mut row = || (0..holes).map(|_| formula.variable(true)).collect::<Vec<_>>();
        let rows: Vec<Vec<Literal>> = (0..=holes).map(|_| row()).collect();
        rows.iter().for_each(|row| formula.clause(row));
        for (place, row) in rows.iter().enumerate() {
            for other in &rows[..place] {
                row.iter().zip(other).for_each(|(&a, &b)| formula.clause(&[!a, !b]));
            }
        }
        formula
    }

    #[test]
    fn learned_clauses_are_freed_and_nothing_is_lost() {
        let mut search = Learning::new(pigeons(7), &limits()).unwrap();
        search.most_learned = 50;
        assert_eq!(search.solve(&[], &mut limits()), Ok(None));
        assert!(search.most_learned > 50, "none were freed");
        assert!(search.learned <= search.most_learned + 1);
        let clauses = &search.watches.clauses;
        assert_eq!(clauses.iter().filter(|&it| clauses.score(it) > 0).count(), search.learned);
    }

    #[test]
    fn it_ends_where_its_limits_do() {
        let mut search = Learning::new(pigeons(9), &limits()).unwrap();
        let mut few = limits().with_conflicts(100);
        assert_eq!(search.solve(&[], &mut few), Err(Stop::Conflicts));
        let mut short = Limits::new(Duration::from_millis(5), usize::MAX);
        assert_eq!(search.solve(&[], &mut short), Err(Stop::Time));
        assert_eq!(
            Learning::new(pigeons(3), &limits()).unwrap().solve(&[], &mut limits()),
            Ok(None)
        );
    }

    #[test]
    fn runs_are_of_every_length() {
        let first: Vec<u64> = (0..15).map(luby).collect();
        assert_eq!(first, [1, 1, 2, 1, 1, 2, 4, 1, 1, 2, 1, 1, 2, 4, 8]);
    }
}
