//! The rules of a sheet that the library has accepted.

/// The most nonterminals of a sheet, and the most terminals.
pub const MOST_SYMBOLS: usize = 64;

/// A layout mark.
#[derive(Clone, Copy, Debug, PartialEq, Eq, Hash)]
pub enum Mark {
    None,
    Offside,
    Offalign,
    Single,
    Align,
    Indent,
}

/// What a rule says of its nonterminal.
#[derive(Clone, Copy, Debug, PartialEq, Eq)]
pub enum Kind {
    Empty,
    Atom { first: usize, last: usize },
    Unary { child: usize, mark: Mark },
    Binary { left: usize, right: usize, mark: Mark },
}

/// A rule.
#[derive(Clone, Copy, Debug, PartialEq, Eq)]
pub struct Rule {
    pub left: usize,
    pub kind: Kind,
}

/// The rules of an accepted rule sheet, in its order.
///
/// # Panics
///
/// If the library would refuse the sheet: it is to be asked first.
pub fn rules_of(sheet: &[u8]) -> Vec<Rule> {
    let text = std::str::from_utf8(sheet).expect("an accepted sheet has no other bytes");
    text.lines().skip(1).map(rule).collect()
}

fn rule(line: &str) -> Rule {
    let fields: Vec<&str> = line.split(' ').collect();
    let [left, kind, first, second, lay] = fields[..] else { panic!("a rule has five fields") };
    let mark = mark(lay);
    let kind = match kind {
        "E" => Kind::Empty,
        "A" if second == "-" => Kind::Atom { first: number(first), last: number(first) },
        "A" => Kind::Atom { first: number(first), last: number(second) },
        "U" => Kind::Unary { child: number(first), mark },
        _ => Kind::Binary { left: number(first), right: number(second), mark },
    };
    Rule { left: number(left), kind }
}

fn number(field: &str) -> usize {
    field.parse().expect("an accepted number")
}

fn mark(field: &str) -> Mark {
    match field {
        "offside" => Mark::Offside,
        "offalign" => Mark::Offalign,
        "single" => Mark::Single,
        "align" => Mark::Align,
        "indent" => Mark::Indent,
        _ => Mark::None,
    }
}

#[cfg(test)]
mod tests {
    use super::*;

    #[test]
    fn each_kind_is_read() {
        let sheet = b"left kind first second lay\n0 E - - none\n00 A 007 - none\n1 A 2 3 none\n\
            0 U 1 - offside\n2 B 0 1 indent\n";
        let kinds = [
            (0, Kind::Empty),
            (0, Kind::Atom { first: 7, last: 7 }),
            (1, Kind::Atom { first: 2, last: 3 }),
            (0, Kind::Unary { child: 1, mark: Mark::Offside }),
            (2, Kind::Binary { left: 0, right: 1, mark: Mark::Indent }),
        ];
        assert_eq!(rules_of(sheet), kinds.map(|(left, kind)| Rule { left, kind }));
    }
}
