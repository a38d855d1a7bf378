//! The search length by length.

use crate::forks::Problem;
use crate::guide::Guide;
use crate::limits::{Limits, Stop};
use crate::patch::Patch;
use crate::search::learning::Learning;
use crate::search::outside::Outside;
use crate::search::Search;
use crate::sheet::Sheet;
use crate::tidy::{close_up, Tidy};

/// What came of a search.
#[derive(Debug, PartialEq, Eq)]
pub enum Found {
    /// A patch of which the proved verdict says that it has two trees.
    Patch(Patch),
    /// Nothing, and there is nothing: the test for every length says clear.
    Clear,
    /// Nothing, which claims nothing.
    Nothing {
        /// Up to this length nothing was found.
        up_to: usize,
        /// Lengths among them at which something was found that the verdict did not confirm.
        unconfirmed: Vec<usize>,
        /// Why it ended before its bound.
        stop: Option<Stop>,
    },
}

/// What is looked through, and how.
pub struct Finder<'a> {
    rules: &'a [u8],
    sheet: Sheet,
    most: usize,
    solver: Option<&'a str>,
}

impl<'a> Finder<'a> {
    /// Of an accepted rule sheet, for sentences of up to `most` tokens.
    pub fn new(rules: &'a [u8], most: usize, guide: Guide, solver: Option<&'a str>) -> Finder<'a> {
        Finder { rules, sheet: Sheet::new(rules, most, guide), most, solver }
    }

    /// The shortest sentence of one token or more that has two trees; where there is none up to the
    /// bound, the sentence of no tokens, if it has.
    pub fn find(&self, limits: &mut Limits) -> Found {
        if self.sheet.guide == Guide::Clear {
            return Found::Clear;
        }
        let mut unconfirmed = Vec::new();
        let mut stop = None;
        let mut up_to = 0;
        while up_to < self.most && stop.is_none() {
            match self.at_length(up_to + 1, limits) {
                Ok(Some(patch)) if patch.is_two(self.rules) => return Found::Patch(patch),
                Ok(Some(_)) => unconfirmed.push(up_to + 1),
                Ok(None) => {}
                Err(why) => stop = Some(why),
            }
            up_to += usize::from(stop.is_none());
        }
        let empty = Patch(Vec::new());
        match self.sheet.shapes.empty_is_two && empty.is_two(self.rules) {
            true => Found::Patch(empty),
            false => Found::Nothing { up_to, unconfirmed, stop },
        }
    }

    /// A sentence of this length, tidied as far as the verdict and the limits allow.
    fn at_length(&self, length: usize, limits: &mut Limits) -> Result<Option<Patch>, Stop> {
        if !self.sheet.lengths.has(0, length) {
            return Ok(None);
        }
        let Problem { formula, tokens, layout } = Problem::of(&self.sheet, length, limits)?;
        let mut search: Box<dyn Search> = match self.solver {
            Some(program) => Box::new(Outside::new(program, formula)),
            None => Box::new(Learning::new(formula, limits)?),
        };
        let Some(model) = search.solve(&[], limits)? else { return Ok(None) };
        let (classes, literals) = tokens.in_model(&model);
        let terminals: Vec<usize> =
            classes.iter().map(|&class| self.sheet.shapes.terminals[class]).collect();
        let first = Patch::of(&model, &layout, &terminals);
        let tidy = Tidy::new(search.as_mut(), &layout, limits, (literals, model)).model(length);
        let tidy = Patch::of(&tidy, &layout, &terminals);
        let best = if tidy.is_two(self.rules) { tidy } else { first };
        Ok(Some(close_up(best, self.rules, limits)))
    }
}
