//! A search for values under which all clauses of a formula hold.

pub mod conflict;
pub mod learning;
pub mod order;
pub mod outside;
pub mod trail;
pub mod watches;

use crate::formula::Literal;
use crate::limits::{Limits, Stop};

/// A value for each variable.
#[derive(Clone, Debug, PartialEq, Eq)]
pub struct Model(Vec<bool>);

impl Model {
    pub fn new(values: Vec<bool>) -> Model {
        Model(values)
    }

    /// Is the literal true?
    pub fn holds(&self, literal: Literal) -> bool {
        self.0[literal.variable()] == literal.is_positive()
    }
}

/// What looks for a model of a formula that it was made with.
pub trait Search {
    /// A model in which the assumed literals are true; none where there is none.
    fn solve(&mut self, assumed: &[Literal], limits: &mut Limits) -> Result<Option<Model>, Stop>;
}
