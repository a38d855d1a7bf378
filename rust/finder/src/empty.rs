//! The empty word under each nonterminal.

use crate::rule::{Kind, Rule, MOST_SYMBOLS};

/// Which nonterminals have the empty word, and which in two ways.
pub struct Empty {
    /// By nonterminal: has it a tree of the empty word?
    pub some: [bool; MOST_SYMBOLS],
    /// By nonterminal: has it two?
    pub two: [bool; MOST_SYMBOLS],
}

impl Empty {
    /// Both by passes over the rules until nothing is added. No mark fails on the empty word.
    ///
    /// Two rules for the empty word are two trees, and so are two trees of a part. A loop needs
    /// nothing of its own: where the empty word goes round one, some nonterminal on it has the rule
    /// that goes on and one that leaves it.
    pub fn of(rules: &[Rule]) -> Empty {
        let mut some = [false; MOST_SYMBOLS];
        saturate(rules, &mut some, |rule, some| parts(rule).is_some_and(|p| all(&p, some)));
        let empty_rules = |left| {
            let own = rules.iter().filter(move |rule| rule.left == left);
            own.filter(|rule| parts(rule).is_some_and(|p| all(&p, &some))).count()
        };
        let mut two = std::array::from_fn(|left| empty_rules(left) > 1);
        saturate(rules, &mut two, |rule, two| {
            parts(rule).is_some_and(|p| all(&p, &some) && p.iter().flatten().any(|&part| two[part]))
        });
        Empty { some, two }
    }
}

/// The nonterminals below a rule that may have the empty word; none of an A rule: it has a token.
fn parts(rule: &Rule) -> Option<[Option<usize>; 2]> {
    match rule.kind {
        Kind::Empty => Some([None, None]),
        Kind::Atom { .. } => None,
        Kind::Unary { child, .. } => Some([Some(child), None]),
        Kind::Binary { left, right, .. } => Some([Some(left), Some(right)]),
    }
}

fn all(parts: &[Option<usize>; 2], some: &[bool; MOST_SYMBOLS]) -> bool {
    parts.iter().flatten().all(|&part| some[part])
}

/// Adds the left of each rule for which `holds`, until no pass adds one.
fn saturate(
    rules: &[Rule],
    set: &mut [bool; MOST_SYMBOLS],
    holds: impl Fn(&Rule, &[bool; MOST_SYMBOLS]) -> bool,
) {
    loop {
        let added: Vec<usize> =
            rules.iter().filter(|r| !set[r.left] && holds(r, set)).map(|r| r.left).collect();
        if added.is_empty() {
            return;
        }
        for left in added {
            set[left] = true;
        }
    }
}

#[cfg(test)]
mod tests {
    use super::*;
    use crate::rule::rules_of;

    fn empty(lines: &str) -> Empty {
        Empty::of(&rules_of(format!("left kind first second lay\n{lines}").as_bytes()))
    }

    #[test]
    fn the_empty_word_comes_up_through_the_rules() {
        let found =
            empty("0 B 1 2 none\n1 U 2 - single\n2 E - - none\n2 A 0 - none\n3 B 2 4 none\n");
        assert_eq!(found.some[..5], [true, true, true, false, false]);
        assert_eq!(found.two, [false; MOST_SYMBOLS]);
    }

    #[test]
    fn two_rules_or_two_trees_of_a_part_are_two() {
        let found = empty("0 B 1 2 none\n0 A 0 - none\n1 E - - none\n2 E - - none\n2 U 1 - none\n");
        assert_eq!(found.two[..3], [true, false, true]);
    }

    #[test]
    fn a_loop_is_two_where_the_empty_word_leaves_it() {
        let found = empty("0 U 1 - none\n1 U 0 - none\n1 E - - none\n2 U 2 - none\n");
        assert_eq!((found.some[2], found.two[..3].to_vec()), (false, vec![true, true, false]));
    }
}
