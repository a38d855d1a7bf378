//! A search by another program, which reads DIMACS and answers as solvers of that kind do.

use std::io::{self, Write};
use std::sync::Arc;

use crate::child;
use crate::formula::{Formula, Literal};
use crate::limits::{Limits, Stop};
use crate::search::{Model, Search};

/// A formula and the program that is asked about it, anew each time.
pub struct Outside {
    program: String,
    formula: Arc<Formula>,
}

impl Outside {
    pub fn new(program: &str, formula: Formula) -> Outside {
        Outside { program: program.to_string(), formula: Arc::new(formula) }
    }

    /// The model of a solver's answer: `s SATISFIABLE` and lines of values that begin with `v`, or
    /// `s UNSATISFIABLE`.
    fn read(&self, answer: &str) -> Result<Option<Model>, Stop> {
        let said = answer.lines().find_map(|line| line.strip_prefix("s "));
        match said.map(str::trim) {
            Some("UNSATISFIABLE") => Ok(None),
            Some("SATISFIABLE") => self.values(answer).map(Some),
            _ => Err(self.failed("says neither SATISFIABLE nor UNSATISFIABLE")),
        }
    }

    fn values(&self, answer: &str) -> Result<Model, Stop> {
        let mut values = vec![false; self.formula.likely.len()];
        values[0] = true;
        let lines = answer.lines().filter_map(|line| line.strip_prefix("v "));
        for word in lines.flat_map(str::split_whitespace) {
            let number: i64 = word.parse().map_err(|_| self.failed("writes no numbers"))?;
            let variable = usize::try_from(number.unsigned_abs()).unwrap_or(usize::MAX);
            match values.get_mut(variable.wrapping_sub(1)) {
                Some(value) => *value = number > 0,
                None if number == 0 => {}
                None => return Err(self.failed("has a variable that it was not asked about")),
            }
        }
        Ok(Model::new(values))
    }

    fn failed(&self, how: &str) -> Stop {
        Stop::Solver(format!("{} {how}", self.program))
    }
}

/// The formula in DIMACS. Assumed literals are clauses of their own.
fn write(formula: &Formula, assumed: &[Literal], out: &mut dyn Write) -> io::Result<()> {
    let clauses = &formula.clauses;
    let count = clauses.iter().count() + assumed.len();
    writeln!(out, "p cnf {} {count}", formula.likely.len())?;
    for clause in clauses.iter() {
        write_clause(clauses.literals(clause), out)?;
    }
    assumed.iter().try_for_each(|&literal| write_clause(&[literal], out))?;
    out.flush()
}

/// Variables are numbered from 1 on, the opposite by the number below 0.
fn write_clause(literals: &[Literal], out: &mut dyn Write) -> io::Result<()> {
    for literal in literals {
        let sign = if literal.is_positive() { "" } else { "-" };
        write!(out, "{sign}{} ", literal.variable() + 1)?;
    }
    writeln!(out, "0")
}

impl Search for Outside {
    fn solve(&mut self, assumed: &[Literal], limits: &mut Limits) -> Result<Option<Model>, Stop> {
        if self.formula.impossible {
            return Ok(None);
        }
        let (formula, assumed) = (Arc::clone(&self.formula), assumed.to_vec());
        let written = move |out: &mut dyn Write| write(&formula, &assumed, out);
        let asked = child::answer(&self.program, written, limits)?;
        let answer = asked.ok_or_else(|| self.failed("cannot be run"))?;
        self.read(&String::from_utf8_lossy(&answer))
    }
}

#[cfg(test)]
mod tests {
    use super::*;

    fn outside() -> (Outside, Literal, Literal) {
        let mut formula = Formula::new();
        let (a, b) = (formula.variable(false), formula.variable(false));
        formula.clause(&[a, !b]);
        (Outside::new("solver", formula), a, b)
    }

    #[test]
    fn clauses_are_written_in_dimacs() {
        let (outside, a, _) = outside();
        let mut written = Vec::new();
        write(&outside.formula, &[!a], &mut written).unwrap();
        assert_eq!(written, b"p cnf 3 3\n1 0\n2 -3 0\n-2 0\n");
    }

    #[test]
    fn answers_are_read() {
        let (outside, a, b) = outside();
        assert_eq!(outside.read("c solver\ns UNSATISFIABLE\n"), Ok(None));
        let model = outside.read("c\ns SATISFIABLE\nv 1 2\nv -3 0\n").unwrap().unwrap();
        assert!(model.holds(a) && model.holds(!b) && model.holds(Literal::TRUE));
        let bad = ["", "s UNKNOWN\n", "s SATISFIABLE\nv 4 0\n", "s SATISFIABLE\nv x 0\n"];
        assert!(bad.iter().all(|answer| matches!(outside.read(answer), Err(Stop::Solver(_)))));
    }
}
