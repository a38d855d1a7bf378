//! A rule as it stands over a word that is not empty.

use crate::empty::Empty;
use crate::rule::{Kind, Mark, Rule, MOST_SYMBOLS};

/// How a nonterminal can have a word of one token or more.
#[derive(Clone, Copy, Debug, PartialEq, Eq)]
pub enum Shape {
    /// A token of one of these classes of terminals, a bit each.
    Token(u64),
    /// The whole word under one nonterminal: by a U rule, or by a B rule whose other side is empty.
    Whole { child: usize, mark: Mark, twice: bool },
    /// Two words under a B rule, neither empty.
    Parts { left: usize, right: usize, mark: Mark },
}

/// A shape and its rule's place in the sheet, from 0. A B rule has up to three shapes.
#[derive(Clone, Copy, Debug, PartialEq, Eq)]
pub struct Ruled {
    pub rule: usize,
    pub shape: Shape,
}

/// All shapes of a sheet.
pub struct Shapes {
    /// By nonterminal, in the order of the rules.
    pub of: Vec<Vec<Ruled>>,
    /// By class of terminals: the least terminal in it.
    pub terminals: Vec<usize>,
    /// Has some rule a mark?
    pub marked: bool,
    /// Has the empty sentence two trees?
    pub empty_is_two: bool,
}

impl Shapes {
    pub fn of(rules: &[Rule]) -> Shapes {
        let empty = Empty::of(rules);
        let classes = Classes::of(rules);
        let mut of = vec![Vec::new(); MOST_SYMBOLS];
        for (place, rule) in rules.iter().enumerate() {
            let shapes = shapes(rule, &empty, &classes).into_iter().flatten();
            of[rule.left].extend(shapes.map(|shape| Ruled { rule: place, shape }));
        }
        let marked = rules.iter().any(|rule| mark(rule) != Mark::None);
        Shapes { of, terminals: classes.least, marked, empty_is_two: empty.two[0] }
    }
}

fn mark(rule: &Rule) -> Mark {
    match rule.kind {
        Kind::Unary { mark, .. } | Kind::Binary { mark, .. } => mark,
        Kind::Empty | Kind::Atom { .. } => Mark::None,
    }
}

/// The shapes of a rule. A mark of a B rule holds where one side is empty.
fn shapes(rule: &Rule, empty: &Empty, classes: &Classes) -> [Option<Shape>; 3] {
    let beside = |child, other: usize| {
        let twice = empty.two[other];
        empty.some[other].then_some(Shape::Whole { child, mark: Mark::None, twice })
    };
    match rule.kind {
        Kind::Empty => [None; 3],
        Kind::Atom { first, last } => {
            [Some(Shape::Token(classes.between(first, last))), None, None]
        }
        Kind::Unary { child, mark } => {
            [Some(Shape::Whole { child, mark, twice: false }), None, None]
        }
        Kind::Binary { left, right, mark } => {
            let parts = Shape::Parts { left, right, mark };
            [Some(parts), beside(left, right), beside(right, left)]
        }
    }
}

/// Terminals that the same A rules cover are one class: no tree tells them apart.
struct Classes {
    /// By terminal: its class; none where no A rule covers it.
    of: [Option<usize>; MOST_SYMBOLS],
    least: Vec<usize>,
}

impl Classes {
    fn of(rules: &[Rule]) -> Classes {
        let covered = |terminal: usize| -> Vec<bool> {
            let covers = |rule: &Rule| match rule.kind {
                Kind::Atom { first, last } => first <= terminal && terminal <= last,
                _ => false,
            };
            rules.iter().map(covers).collect()
        };
        let mut classes = Classes { of: [None; MOST_SYMBOLS], least: Vec::new() };
        let mut kinds = Vec::new();
        for terminal in 0..MOST_SYMBOLS {
            let kind = covered(terminal);
            if !kind.contains(&true) {
                continue;
            }
            let class = kinds.iter().position(|other| *other == kind).unwrap_or(kinds.len());
            if class == kinds.len() {
                kinds.push(kind);
                classes.least.push(terminal);
            }
            classes.of[terminal] = Some(class);
        }
        classes
    }

    /// The classes of the terminals of an A rule.
    fn between(&self, first: usize, last: usize) -> u64 {
        let classes = self.of[first..=last].iter().flatten();
        classes.fold(0, |set, class| set | 1 << class)
    }
}

#[cfg(test)]
mod tests {
    use super::*;
    use crate::rule::rules_of;

    fn shapes(lines: &str) -> Shapes {
        Shapes::of(&rules_of(format!("left kind first second lay\n{lines}").as_bytes()))
    }

    #[test]
    fn terminals_that_are_used_alike_are_one_class() {
        let found = shapes("0 A 3 9 none\n1 A 5 - none\n0 U 1 - none\n");
        assert_eq!(found.terminals, [3, 5]);
        assert_eq!(found.of[0][0].shape, Shape::Token(0b11));
        assert_eq!(found.of[1][0].shape, Shape::Token(0b10));
        assert!(!found.marked && !found.empty_is_two);
    }

    #[test]
    fn a_side_that_may_be_empty_makes_a_whole() {
        let found = shapes("0 B 1 2 align\n1 A 0 - none\n2 E - - none\n2 B 2 2 none\n");
        let (none, twice) = (Mark::None, true);
        let whole = |child| Shape::Whole { child, mark: none, twice };
        let parts = |left, right, mark| Shape::Parts { left, right, mark };
        let of =
            |left: usize| found.of[left].iter().map(|it| (it.rule, it.shape)).collect::<Vec<_>>();
        assert_eq!(of(0), [(0, parts(1, 2, Mark::Align)), (0, whole(1))]);
        assert_eq!(of(2), [(3, parts(2, 2, none)), (3, whole(2)), (3, whole(2))]);
        assert!(found.marked && !found.empty_is_two);
    }
}
