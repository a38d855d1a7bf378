//! The clauses of all trees of one length.
//!
//! A node, if true, needs one of its choices; a choice, if true, needs its children, its mark and
//! its terminal. These implications go one way only: what is true has a tree, what has a tree need
//! not be true.

use std::collections::HashMap;

use crate::formula::{Formula, Literal};
use crate::layout::Layout;
use crate::limits::{Limits, Stop};
use crate::rule::Mark;
use crate::shapes::{Ruled, Shape};
use crate::sheet::Sheet;
use crate::tokens::Tokens;

/// A nonterminal over a word that is not empty.
#[derive(Clone, Copy, Debug, PartialEq, Eq, Hash)]
pub struct Node {
    pub nonterminal: u8,
    pub start: u8,
    pub length: u8,
}

impl Node {
    pub fn new(nonterminal: usize, start: usize, length: usize) -> Node {
        let small = |number: usize| u8::try_from(number).expect("no number is above 64");
        Node { nonterminal: small(nonterminal), start: small(start), length: small(length) }
    }
}

/// A choice of a node: a shape, and where it parts the word.
pub struct Choice {
    pub literal: Literal,
    pub rule: usize,
    pub children: [Option<Node>; 2],
    /// Is the literal the child's own?
    pub bare: bool,
    /// Has the rule's empty side two trees?
    pub twice: bool,
    /// The mark of a child of the same group over the same word.
    joined: Option<Mark>,
}

impl Choice {
    /// Is the child in the node's own group?
    pub fn is_joined(&self) -> bool {
        self.joined.is_some()
    }
}

/// The nodes below the start over the whole sentence, and their clauses.
pub struct Trees<'a> {
    pub sheet: &'a Sheet,
    pub formula: Formula,
    pub tokens: Tokens,
    pub layout: Layout,
    /// By node all its choices, whether they go round within a group or not.
    pub choices: HashMap<Node, Vec<Choice>>,
    /// By node and the rounds that its tree may take within its group.
    nodes: HashMap<(Node, usize), Literal>,
    waiting: Vec<(Node, usize)>,
}

impl<'a> Trees<'a> {
    pub fn of(sheet: &'a Sheet, length: usize, limits: &Limits) -> Result<Trees<'a>, Stop> {
        let mut formula = Formula::new();
        let tokens = Tokens::any(length, sheet.shapes.terminals.len(), &mut formula);
        let layout = match sheet.shapes.marked {
            true => Layout::any(length, &mut formula, limits)?,
            false => Layout::plain(length),
        };
        let (choices, nodes, waiting) = (HashMap::new(), HashMap::new(), Vec::new());
        let mut trees = Trees { sheet, formula, tokens, layout, choices, nodes, waiting };
        let whole = trees.tree(Node::new(0, 0, length));
        trees.formula.clause(&[whole]);
        while let Some((node, rounds)) = trees.waiting.pop() {
            limits.look()?;
            trees.grow(node, rounds);
        }
        Ok(trees)
    }

    /// The node has a tree.
    pub fn tree(&mut self, node: Node) -> Literal {
        let rounds = self.sheet.loops.rounds(node.nonterminal.into());
        self.tree_within(node, rounds)
    }

    /// The node has a tree that takes so many rounds at most.
    fn tree_within(&mut self, node: Node, rounds: usize) -> Literal {
        if !self.sheet.lengths.has(node.nonterminal.into(), node.length.into()) {
            return Literal::FALSE;
        }
        if let Some(&literal) = self.nodes.get(&(node, rounds)) {
            return literal;
        }
        let literal = self.formula.variable(false);
        self.nodes.insert((node, rounds), literal);
        self.waiting.push((node, rounds));
        literal
    }

    /// A node needs one of its choices. A choice within its group takes a round.
    fn grow(&mut self, node: Node, rounds: usize) {
        if !self.choices.contains_key(&node) {
            let made = self.choices_of(node);
            self.choices.insert(node, made);
        }
        let plain = |choice: &&Choice| !choice.is_joined();
        let choices = &self.choices[&node];
        let mut any: Vec<Literal> = choices.iter().filter(plain).map(|it| it.literal).collect();
        let joined: Vec<(Option<Node>, Option<Mark>)> =
            choices.iter().map(|it| (it.children[0], it.joined)).collect();
        for (child, mark) in joined {
            if let (Some(child), Some(mark), Some(left)) = (child, mark, rounds.checked_sub(1)) {
                let below = self.tree_within(child, left);
                any.push(self.marked(below, mark, node));
            }
        }
        self.formula.implies(self.nodes[&(node, rounds)], &any);
    }

    /// The literal, and the mark of a U rule over the node's word.
    fn marked(&mut self, below: Literal, mark: Mark, node: Node) -> Literal {
        let (first, length) = (usize::from(node.start), usize::from(node.length));
        let holds = self.layout.of_word(mark, first, first + length - 1, &mut self.formula);
        self.formula.all(&[below, holds])
    }

    fn choices_of(&mut self, node: Node) -> Vec<Choice> {
        let sheet = self.sheet;
        let mut choices = Vec::new();
        for ruled in &sheet.shapes.of[usize::from(node.nonterminal)] {
            match ruled.shape {
                Shape::Token(_) | Shape::Whole { .. } => choices.extend(self.whole(node, ruled)),
                Shape::Parts { .. } => {
                    choices.extend((1..node.length).filter_map(|cut| self.parts(node, ruled, cut)));
                }
            }
        }
        choices
    }

    /// The choice of a token, or of one nonterminal over the whole word; none where it has no tree.
    fn whole(&mut self, node: Node, ruled: &Ruled) -> Option<Choice> {
        let rule = ruled.rule;
        match ruled.shape {
            Shape::Token(classes) if node.length == 1 => {
                let literal = self.tokens.of(node.start.into(), classes, &mut self.formula);
                let (children, bare, twice) = ([None; 2], false, false);
                Some(Choice { literal, rule, children, bare, twice, joined: None })
            }
            Shape::Whole { child, mark, twice } => {
                let below = Node { nonterminal: Node::new(child, 0, 0).nonterminal, ..node };
                let tree = self.tree(below);
                if tree == Literal::FALSE {
                    return None;
                }
                let literal = self.marked(tree, mark, node);
                let joined =
                    self.sheet.loops.joined(node.nonterminal.into(), child).then_some(mark);
                let (children, bare) = ([Some(below), None], literal == tree);
                Some(Choice { literal, rule, children, bare, twice, joined })
            }
            _ => None,
        }
    }

    /// The choice of a B rule that parts the word after so many tokens; none where it has no tree.
    fn parts(&mut self, node: Node, ruled: &Ruled, cut: u8) -> Option<Choice> {
        let Shape::Parts { left, right, mark } = ruled.shape else { return None };
        let lengths = &self.sheet.lengths;
        let rest = node.length - cut;
        if !lengths.has(left, cut.into()) || !lengths.has(right, rest.into()) {
            return None;
        }
        let second = node.start + cut;
        let left = Node::new(left, node.start.into(), cut.into());
        let right = Node::new(right, second.into(), rest.into());
        let (first, second) = (node.start.into(), second.into());
        let holds = self.layout.of_parts(mark, first, second, &mut self.formula);
        let needed = [self.tree(left), self.tree(right), holds];
        let literal = self.formula.variable(false);
        needed.iter().for_each(|&each| self.formula.implies(literal, &[each]));
        let children = [Some(left), Some(right)];
        Some(Choice {
            literal,
            rule: ruled.rule,
            children,
            bare: false,
            twice: false,
            joined: None,
        })
    }
}
