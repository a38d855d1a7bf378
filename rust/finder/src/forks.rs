//! The clauses of a fork: some node that a whole tree reaches has two choices.
//!
//! A node, if reached, has a reached parent with a true choice that it stands in. Nodes are gone
//! through longest word first, and over one word parents first, so that the parents of a node are
//! all known when it is its turn. Within a group a parent is reached a round before its child.

use std::collections::HashMap;

use crate::formula::{Formula, Literal};
use crate::layout::Layout;
use crate::limits::{Limits, Stop};
use crate::sheet::Sheet;
use crate::tokens::Tokens;
use crate::trees::{Choice, Node, Trees};

/// Up to so many literals, that two of them are true is said by clauses of all but one.
const FEW: usize = 5;

/// All clauses of one length, and the literals to read a sentence by.
pub struct Problem {
    pub formula: Formula,
    pub tokens: Tokens,
    pub layout: Layout,
}

impl Problem {
    /// The sentences of a length that have two trees.
    pub fn of(sheet: &Sheet, length: usize, limits: &Limits) -> Result<Problem, Stop> {
        let trees = Trees::of(sheet, length, limits)?;
        let mut forks = Forks { trees, parents: HashMap::new(), all: Vec::new() };
        let whole = Node::new(0, 0, length);
        forks.parents.insert((whole, 0), vec![Literal::TRUE]);
        for span in (1..=length).rev() {
            for start in 0..=length - span {
                limits.look()?;
                sheet.loops.groups.iter().for_each(|group| forks.group(group, start, span));
            }
        }
        let Forks { trees: Trees { mut formula, tokens, layout, .. }, all, .. } = forks;
        formula.early.extend(all.iter().map(|fork| fork.variable()));
        formula.clause(&all);
        Ok(Problem { formula, tokens, layout })
    }
}

/// How the trees of a node part.
enum Fork {
    /// By one choice, whose empty side has two trees.
    One(Literal),
    /// By two of these choices.
    Two(Vec<Literal>),
    /// By one choice of each kind.
    Each(Vec<Literal>, Vec<Literal>),
}

struct Forks<'a> {
    trees: Trees<'a>,
    /// By node and the round in which it is reached: the reached parents with their choices.
    parents: HashMap<(Node, usize), Vec<Literal>>,
    all: Vec<Literal>,
}

impl Forks<'_> {
    /// The nodes of a group over one word: what they reach, and their forks.
    fn group(&mut self, group: &[usize], start: usize, length: usize) {
        let nodes = || group.iter().map(|&nonterminal| Node::new(nonterminal, start, length));
        let mut reached: Vec<Vec<Literal>> = vec![Vec::new(); group.len()];
        for round in 0..group.len() {
            for (node, reached) in nodes().zip(&mut reached) {
                if let Some(parents) = self.parents.remove(&(node, round)) {
                    let literal = self.reached(node, &parents);
                    self.hand_down(node, round, literal);
                    reached.push(literal);
                }
            }
        }
        for (node, reached) in nodes().zip(&reached) {
            if !reached.is_empty() {
                self.fork(node, reached);
            }
        }
    }

    /// A literal that is true only where a parent is. One of its own may ask for a tree besides; a
    /// parent's may not, since a bare choice hands it down whether there is a tree or not.
    fn reached(&mut self, node: Node, parents: &[Literal]) -> Literal {
        let tree = self.trees.tree(node);
        let reached = self.trees.formula.some(parents);
        if !parents.contains(&reached) {
            self.trees.formula.implies(reached, &[tree]);
        }
        reached
    }

    /// Makes a reached node the parent of what stands in its choices.
    fn hand_down(&mut self, node: Node, round: usize, reached: Literal) {
        let Forks { trees, parents, .. } = self;
        let rounds = trees.sheet.loops.rounds(node.nonterminal.into());
        for choice in &trees.choices[&node] {
            let below = if choice.is_joined() { round + 1 } else { 0 };
            if choice.children[0].is_none() || choice.is_joined() && below > rounds {
                continue;
            }
            // a bare choice is the child's own tree, which a fork in it has anyway
            let by = match choice.bare {
                true => reached,
                false => trees.formula.all(&[reached, choice.literal]),
            };
            for child in choice.children.into_iter().flatten() {
                let known = parents.entry((child, below)).or_default();
                if known.last() != Some(&by) {
                    known.push(by);
                }
            }
        }
    }

    /// The forks of a reached node.
    fn fork(&mut self, node: Node, reached: &[Literal]) {
        for fork in self.forks_of(node) {
            let formula = &mut self.trees.formula;
            let literal = formula.variable(false);
            formula.implies(literal, reached);
            match fork {
                Fork::One(choice) => formula.implies(literal, &[choice]),
                Fork::Two(choices) => two_of(literal, &choices, formula),
                Fork::Each(some, others) => {
                    formula.implies(literal, &some);
                    formula.implies(literal, &others);
                }
            }
            self.all.push(literal);
        }
    }

    /// All ways in which a node's trees can part, or those that the guide names.
    fn forks_of(&self, node: Node) -> Vec<Fork> {
        let choices = &self.trees.choices[&node];
        let literals = |wanted: &dyn Fn(&Choice) -> bool| -> Vec<Literal> {
            choices.iter().filter(|it| wanted(it)).map(|choice| choice.literal).collect()
        };
        let twice = choices.iter().filter(|choice| choice.twice);
        let mut forks: Vec<Fork> = twice.map(|choice| Fork::One(choice.literal)).collect();
        let Some(pairs) = self.trees.sheet.guide.pairs(node.nonterminal.into()) else {
            forks.extend((choices.len() > 1).then(|| Fork::Two(literals(&|_| true))));
            return forks;
        };
        for &(first, second) in pairs {
            let of = |rule| literals(&|choice| choice.rule == rule);
            let (some, others) = (of(first), of(second));
            if first == second && some.len() > 1 {
                forks.push(Fork::Two(some));
            } else if first != second && !some.is_empty() && !others.is_empty() {
                forks.push(Fork::Each(some, others));
            }
        }
        forks
    }
}

/// Where the reason is true, two of these are; there are two or more of them.
fn two_of(reason: Literal, literals: &[Literal], formula: &mut Formula) {
    if literals.len() <= FEW {
        for left_out in 0..literals.len() {
            let (before, after) = (&literals[..left_out], &literals[left_out + 1..]);
            formula.implies(reason, &[before, after].concat());
        }
        return;
    }
    // the first of the two is one of these, and another one comes later
    let (&last, before) = literals.split_last().expect("there are two or more");
    let (mut later, mut firsts) = (last, Vec::new());
    for &literal in before.iter().rev() {
        firsts.push(formula.all(&[literal, later]));
        later = formula.some(&[literal, later]);
    }
    formula.implies(reason, &firsts);
}

#[cfg(test)]
mod tests {
    use super::*;
    use crate::search::{learning::Learning, Search};
    use std::time::Duration;

    #[test]
    fn two_of_many_are_two_at_least() {
        for count in 2..=8 {
            let mut formula = Formula::new();
            let all: Vec<Literal> = (0..count).map(|_| formula.variable(false)).collect();
            two_of(Literal::TRUE, &all, &mut formula);
            let mut limits = Limits::new(Duration::from_secs(3600), usize::MAX);
            let mut search = Learning::new(formula, &limits).unwrap();
            for chosen in 0..1_u32 << count {
                let is = |place: usize| chosen >> place & 1 == 1;
                let assumed: Vec<Literal> =
                    (0..count).map(|it| if is(it) { all[it] } else { !all[it] }).collect();
                let found = search.solve(&assumed, &mut limits).unwrap().is_some();
                assert_eq!(found, chosen.count_ones() > 1, "{chosen:b} of {count}");
            }
        }
    }
}
