//! The terminals of all tokens.

use std::collections::HashMap;

use crate::formula::{Formula, Literal};
use crate::search::Model;

/// The literals of all choices of a class of terminals for each token.
pub struct Tokens {
    /// By token and class.
    is: Vec<Vec<Literal>>,
    /// By token and set of classes, where it is neither one class nor all.
    made: HashMap<(usize, u64), Literal>,
}

impl Tokens {
    /// A token is of one class at most.
    pub fn any(tokens: usize, classes: usize, formula: &mut Formula) -> Tokens {
        let row = |formula: &mut Formula| -> Vec<Literal> {
            match classes {
                1 => vec![Literal::TRUE],
                _ => (0..classes).map(|_| formula.variable(false)).collect(),
            }
        };
        let is: Vec<Vec<Literal>> = (0..tokens).map(|_| row(formula)).collect();
        for row in &is {
            for (class, &this) in row.iter().enumerate() {
                row[..class].iter().for_each(|&other| formula.clause(&[!this, !other]));
            }
        }
        Tokens { is, made: HashMap::new() }
    }

    /// The token is of one of these classes.
    pub fn of(&mut self, token: usize, classes: u64, formula: &mut Formula) -> Literal {
        let row = &self.is[token];
        if classes.count_ones() as usize == row.len() {
            return Literal::TRUE;
        }
        let asked = || -> Vec<Literal> {
            (0..row.len()).filter(|class| classes >> class & 1 == 1).map(|c| row[c]).collect()
        };
        *self.made.entry((token, classes)).or_insert_with(|| formula.some(&asked()))
    }

    /// The class of each token in a model, and the literals that say so. A token that is of none
    /// may be of any.
    pub fn in_model(&self, model: &Model) -> (Vec<usize>, Vec<Literal>) {
        let class = |row: &Vec<Literal>| row.iter().position(|&is| model.holds(is)).unwrap_or(0);
        let classes: Vec<usize> = self.is.iter().map(class).collect();
        let literals = self.is.iter().zip(&classes).map(|(row, &class)| row[class]).collect();
        (classes, literals)
    }
}

#[cfg(test)]
mod tests {
    use super::*;
    use crate::limits::Limits;
    use crate::search::{learning::Learning, Search};
    use std::time::Duration;

    #[test]
    fn a_token_is_of_one_class() {
        let limits = || Limits::new(Duration::from_secs(3600), usize::MAX);
        let mut formula = Formula::new();
        let mut tokens = Tokens::any(2, 3, &mut formula);
        let [low, high] = [0b011, 0b110].map(|set| tokens.of(0, set, &mut formula));
        assert_eq!(tokens.of(0, 0b111, &mut formula), Literal::TRUE);
        assert_eq!(tokens.of(0, 0b110, &mut formula), high);
        let last = tokens.of(1, 0b100, &mut formula);
        let mut search = Learning::new(formula, &limits()).unwrap();
        let model = search.solve(&[low, high, last], &mut limits()).unwrap().unwrap();
        let (classes, literals) = tokens.in_model(&model);
        assert_eq!((classes, literals[1]), (vec![1, 2], last));
    }

    #[test]
    fn of_one_class_nothing_is_asked() {
        let mut formula = Formula::new();
        let mut tokens = Tokens::any(2, 1, &mut formula);
        assert_eq!(tokens.of(1, 1, &mut formula), Literal::TRUE);
        assert_eq!(tokens.in_model(&Model::new(vec![true])).0, [0, 0]);
    }
}
