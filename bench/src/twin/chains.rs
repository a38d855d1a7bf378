//! The table of chains, made once for the rules: what follows over a span from
//! each nonterminal alone, by rules that have the whole span on one side. These
//! are the links: U rules, and B rules whose other side is empty.

use super::grammar::{has, Clause, Rule, UnaryMark};
use super::spans::Pair;

/// For each level of a span and each nonterminal its chains. What a level's
/// marks allow, the levels above allow too.
pub struct Chains([[Pair; 64]; 4]);

/// `left` has what `over` has; `again` says that it has it twice.
struct Link {
    left: usize,
    over: usize,
    level: usize,
    again: bool,
}

/// The least level at which the mark holds.
fn level(mark: UnaryMark) -> usize {
    match mark {
        UnaryMark::None => 0,
        UnaryMark::Offalign => 1,
        UnaryMark::Offside => 2,
        UnaryMark::Single => 3,
    }
}

fn links(rules: &[Rule], empty: Pair) -> Vec<Link> {
    let mut links = Vec::new();
    for rule in rules {
        let left = usize::from(rule.left);
        let mut beside = |over: u8, other: u8| {
            if has(empty.one, other) {
                let again = has(empty.two, other);
                links.push(Link { left, over: usize::from(over), level: 0, again });
            }
        };
        match rule.clause {
            Clause::Empty | Clause::Atom(..) => {}
            Clause::Unary(b, mark) => {
                let (over, level) = (usize::from(b), level(mark));
                links.push(Link { left, over, level, again: false });
            }
            Clause::Binary(b, d, _) => {
                beside(d, b);
                beside(b, d);
            }
        }
    }
    links
}

/// A word for each left with its own bit and those that `base` has of what it
/// has links over; and a word with those that it has so in two ways.
fn counted(links: &[Link], at: usize, base: &[u64; 64]) -> ([u64; 64], [u64; 64]) {
    let (mut seen, mut twice) = (selves(), [0; 64]);
    for link in links.iter().filter(|link| link.level <= at) {
        let set = base[link.over];
        twice[link.left] |= if link.again { set } else { set & seen[link.left] };
        seen[link.left] |= set;
    }
    (seen, twice)
}

fn selves() -> [u64; 64] {
    std::array::from_fn(|a| 1 << a)
}

/// Links of links, a nonterminal at a time.
fn close(words: &mut [u64; 64]) {
    for k in 0..64 {
        let set = words[k];
        if set == 1 << k {
            continue;
        }
        for word in words.iter_mut().filter(|word| has(**word, k as u8)) {
            *word |= set;
        }
    }
}

/// The entries of a level, by what each nonterminal follows from.
fn entries(links: &[Link], at: usize) -> [Pair; 64] {
    let (mut reach, _) = counted(links, at, &selves());
    close(&mut reach);
    let (seen, twice) = counted(links, at, &reach);
    let mut up = [Pair::default(); 64];
    for (a, &one) in seen.iter().enumerate() {
        let two = members(one).fold(0, |set, c| set | twice[c]);
        members(one).for_each(|b| up[b].one |= 1 << a);
        members(two).for_each(|b| up[b].two |= 1 << a);
    }
    up
}

/// The members of a set, the least first.
pub fn members(mut set: u64) -> impl Iterator<Item = usize> {
    std::iter::from_fn(move || {
        let least = (set != 0).then(|| set.trailing_zeros() as usize);
        set &= set.wrapping_sub(1);
        least
    })
}

impl Chains {
    pub fn of(rules: &[Rule], empty: Pair) -> Chains {
        let links = links(rules, empty);
        let mut table = [[Pair::default(); 64]; 4];
        for at in 0..4 {
            // Where no mark begins to hold, the entries are those of the level below.
            let new = at == 0 || links.iter().any(|link| link.level == at);
            table[at] = if new { entries(&links, at) } else { table[at - 1] };
        }
        Chains(table)
    }

    /// The pair of a span of that level from what stands by its parts: the
    /// entries of its members, put together.
    pub fn unite(&self, level: usize, inner: Pair) -> Pair {
        let mut pair = Pair::default();
        for b in members(inner.one) {
            let up = self.0[level][b];
            let again = if has(inner.two, b as u8) { up.one } else { 0 };
            pair.two |= up.two | pair.one & up.one | again;
            pair.one |= up.one;
        }
        pair
    }
}
