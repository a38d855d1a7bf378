//! Large clause sheets: their expansions have all of the 64 nonterminals that
//! there may be, or all but one.

/// A clause sheet.
pub struct Clauses {
    pub name: &'static str,
    pub what: &'static str,
    pub sheet: fn() -> Vec<u8>,
}

pub const CLAUSES: [Clauses; 4] = [
    Clauses {
        name: "alternatives",
        what: "a token or one of 61 pairs, on one line",
        sheet: alternatives,
    },
    Clauses { name: "lines", what: "the same, each on a line of its own", sheet: lines },
    Clauses { name: "repeats", what: "20 alternatives with an aligned repeat", sheet: repeats },
    Clauses { name: "groups", what: "a pair in 16 groups, one in 13", sheet: groups },
];

/// A token, then so many alternatives.
fn choices(alternative: &str, count: usize) -> Vec<String> {
    let others = std::iter::repeat_n(alternative, count);
    std::iter::once("t0").chain(others).map(str::to_string).collect()
}

fn alternatives() -> Vec<u8> {
    sheet(&[choices("n0 n0", 61).join(" | ")])
}

fn lines() -> Vec<u8> {
    sheet(&choices("n0 n0", 61))
}

fn repeats() -> Vec<u8> {
    sheet(&[choices("n0 n0+:align", 20).join(" | ")])
}

fn groups() -> Vec<u8> {
    let nested = |levels| format!("{}n0 n0{}", "(".repeat(levels), ")".repeat(levels));
    sheet(&["t0".to_string(), nested(16), nested(13)])
}

/// The expressions as lines of the start.
fn sheet(expressions: &[String]) -> Vec<u8> {
    let lines: String = expressions.iter().map(|text| format!("0 {text}\n")).collect();
    format!("left clause\n{lines}").into_bytes()
}
