//! Random sheets, the same ones for the same seed.

/// A xorshift generator.
pub struct Random(u64);

impl Random {
    pub fn new(seed: u64) -> Random {
        Random(seed | 1)
    }

    fn next(&mut self) -> u64 {
        self.0 ^= self.0 << 13;
        self.0 ^= self.0 >> 7;
        self.0 ^= self.0 << 17;
        self.0
    }

    /// A number below the limit.
    pub fn below(&mut self, limit: u64) -> u64 {
        (self.next() >> 16) % limit
    }

    /// One of the items.
    pub fn pick<T: Copy>(&mut self, items: &[T]) -> T {
        items[self.below(items.len() as u64) as usize]
    }
}

pub const UNARY_LAYS: [&str; 4] = ["none", "offside", "offalign", "single"];
pub const BINARY_LAYS: [&str; 3] = ["none", "align", "indent"];

/// The lines of a rule sheet as a sheet.
pub fn rule_sheet(lines: &[String]) -> Vec<u8> {
    format!("left kind first second lay\n{}", joined(lines)).into_bytes()
}

/// The lines of a token sheet as a sheet.
pub fn token_sheet(lines: &[String]) -> Vec<u8> {
    format!("term line col\n{}", joined(lines)).into_bytes()
}

fn joined(lines: &[String]) -> String {
    lines.iter().map(|line| format!("{line}\n")).collect()
}

/// A rule over so many nonterminals and terminals: mostly B, few E.
pub fn rule_line(random: &mut Random, nonterminals: u64, terminals: u64) -> String {
    let left = random.below(nonterminals);
    let first = random.below(nonterminals);
    let second = random.below(nonterminals);
    match random.below(12) {
        0 => format!("{left} E - - none"),
        1..=4 => format!("{left} A {} - none", random.below(terminals)),
        5..=6 => format!("{left} U {first} - {}", random.pick(&UNARY_LAYS)),
        _ => format!("{left} B {first} {second} {}", random.pick(&BINARY_LAYS)),
    }
}

/// Token lines in rising positions.
pub fn token_lines(random: &mut Random, count: u64, terminals: u64) -> Vec<String> {
    let (mut line, mut column) = (1, 1 + random.below(3));
    let mut lines = Vec::new();
    for _ in 0..count {
        lines.push(format!("{} {line} {column}", random.below(terminals)));
        let step = random.below(3);
        line += step;
        column = if step == 0 { column + 1 + random.below(2) } else { 1 + random.below(4) };
    }
    lines
}
