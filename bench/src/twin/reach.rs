//! The rules that the start reaches.

use super::grammar::{has, Clause, Rule};

/// The rules that the start reaches, in their order: no tree of it has others.
pub fn reachable(rules: &[Rule]) -> Vec<Rule> {
    let mut reached = 1;
    loop {
        let next = rules.iter().filter(|rule| has(reached, rule.left)).fold(reached, with_parts);
        if next == reached {
            return rules.iter().filter(|rule| has(reached, rule.left)).copied().collect();
        }
        reached = next;
    }
}

/// The set with the nonterminals of the rule's clause.
fn with_parts(set: u64, rule: &Rule) -> u64 {
    match rule.clause {
        Clause::Empty | Clause::Atom(..) => set,
        Clause::Unary(b, _) => set | 1 << b,
        Clause::Binary(b, d, _) => set | 1 << b | 1 << d,
    }
}
