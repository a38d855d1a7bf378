//! Nonterminals that lead to each other over one and the same word.

use crate::rule::MOST_SYMBOLS;
use crate::shapes::{Shape, Shapes};

/// Nonterminals in groups: two are in one group if each leads to the other by `Whole` shapes.
///
/// A tree goes down through the groups, and within a group as long as it likes. The least tree of a
/// word meets each nonterminal of a group once at most, so as many rounds as the group has members
/// less one are enough.
pub struct Loops {
    /// The groups, each before those that it leads to.
    pub groups: Vec<Vec<usize>>,
    /// By nonterminal: its group.
    group: Vec<usize>,
}

impl Loops {
    pub fn of(shapes: &Shapes) -> Loops {
        let leads = leads(shapes);
        let together = |a: usize, b: usize| a == b || leads[a][b] && leads[b][a];
        let mut groups: Vec<Vec<usize>> = Vec::new();
        for a in 0..MOST_SYMBOLS {
            if !groups.iter().any(|group| together(group[0], a)) {
                groups.push((a..MOST_SYMBOLS).filter(|&b| together(a, b)).collect());
            }
        }
        // all that leads to a group, and the group besides, leads to what it leads to
        let is_above = |a: usize, b: usize| !together(a, b) && leads[b][a];
        groups.sort_by_key(|group| (0..MOST_SYMBOLS).filter(|&b| is_above(group[0], b)).count());
        let mut group = vec![0; MOST_SYMBOLS];
        for (place, members) in groups.iter().enumerate() {
            members.iter().for_each(|&a| group[a] = place);
        }
        Loops { groups, group }
    }

    /// Are the two in one group?
    pub fn joined(&self, a: usize, b: usize) -> bool {
        self.group[a] == self.group[b]
    }

    /// The rounds that the least tree of a nonterminal takes at most within its group.
    pub fn rounds(&self, nonterminal: usize) -> usize {
        self.groups[self.group[nonterminal]].len() - 1
    }
}

/// By two nonterminals: does the first lead to the second, by one step or more?
fn leads(shapes: &Shapes) -> Vec<Vec<bool>> {
    let mut leads = vec![vec![false; MOST_SYMBOLS]; MOST_SYMBOLS];
    for (left, own) in shapes.of.iter().enumerate() {
        for ruled in own {
            if let Shape::Whole { child, .. } = ruled.shape {
                leads[left][child] = true;
            }
        }
    }
    for by in 0..MOST_SYMBOLS {
        let beyond = leads[by].clone();
        for from in leads.iter_mut().filter(|from| from[by]) {
            from.iter_mut().zip(&beyond).for_each(|(to, more)| *to |= more);
        }
    }
    leads
}

#[cfg(test)]
mod tests {
    use super::*;
    use crate::rule::rules_of;

    #[test]
    fn groups_stand_before_those_that_they_lead_to() {
        let sheet = b"left kind first second lay\n0 U 3 - none\n3 U 2 - none\n2 U 3 - single\n\
            2 U 1 - none\n1 A 0 - none\n4 U 0 - none\n";
        let loops = Loops::of(&Shapes::of(&rules_of(sheet)));
        let place = |a: usize| loops.groups.iter().position(|group| group.contains(&a)).unwrap();
        assert!(place(4) < place(0) && place(0) < place(2) && place(2) < place(1));
        assert_eq!(loops.groups[place(3)], [2, 3]);
        assert!(loops.joined(2, 3) && !loops.joined(0, 2));
        assert_eq!([0, 2, 3].map(|a| loops.rounds(a)), [0, 1, 1]);
    }
}
