//! Table j: columns known between two ends.

use bench::clock::timed;
use bench::families::{self, VERDICT};
use bench::library;
use bench::random::token_sheet;
use bench::twin::{self, columns::Ranged, sheets};
use bench::visited::{self, Family};

use crate::calls::WORDS;

/// So many tokens have two columns each: 65,536 choices.
const ALL: usize = 16;

/// The same where every choice is visited and a row is scaled from fewer: 1,024.
const SOME: usize = 10;

/// The tokens of a sentence of the families, of which so many in the middle
/// have a column more.
fn ranges(n: usize, terminals: usize, uncertain: usize) -> Vec<Ranged> {
    let tokens = sheets::read_tokens(&families::sentence(n, terminals)).expect("a token sheet");
    let from = (n - uncertain) / 2;
    let middle = from..from + uncertain;
    tokens
        .iter()
        .enumerate()
        .map(|(i, &token)| (token, 1 + u16::from(middle.contains(&i))))
        .collect()
}

/// The same as a range sheet.
fn range_sheet(ranges: &[Ranged]) -> Vec<u8> {
    let line = |&(token, columns): &Ranged| {
        let low = token.column.0;
        format!("{} {} {low} {}", token.terminal, token.line.0, low + columns - 1)
    };
    let tokens: Vec<String> = ranges.iter().map(line).collect();
    let sheet = String::from_utf8(token_sheet(&tokens)).expect("ASCII");
    sheet.replacen("term line col", "term line low high", 1).into_bytes()
}

/// CPU seconds of library and twin, and which verdicts both find.
struct Measured {
    library: f64,
    twin: f64,
    found: [bool; 3],
}

impl Measured {
    fn of(rules: &[u8], ranges: &[Ranged]) -> Measured {
        let (sheet, mut words) = (range_sheet(ranges), vec![0; WORDS]);
        let (library, (word, found)) = timed(|| library::columns(rules, &sheet, &mut words));
        assert_eq!(word >> 32, 4, "the sheets are accepted");
        let rules = sheets::read_rules(rules).expect("a rule sheet");
        let (twin, same) = timed(|| twin::columns::columns(&rules, ranges, &mut words));
        assert_eq!(found.map(|flag| flag == 1), same, "the same verdicts");
        Measured { library, twin, found: same }
    }

    /// The rest of a row, each time taken so many times.
    fn row(&self, times: f64) -> String {
        let found = self.found.map(|flag| if flag { "yes" } else { "no" }).join(" ");
        let (library, twin) = (times * self.library, times * self.twin);
        format!("{found} | {library:.3} | {twin:.3} | {:.2} |", library / twin)
    }
}

fn heading(what: &str) {
    println!("(j) {what}\n");
    println!("| family | none one two | library, CPU s | twin, CPU s | library/twin |");
    println!("|---|---|---|---|---|");
}

/// (j) The families of the verdict, those that make every choice be visited, and
/// the worst of these with all choices; then a usual patch.
pub fn columns() {
    heading("Columns of 64 tokens under 128 rules, 65,536 choices");
    for family in &VERDICT {
        let all = ranges(64, family.terminals, ALL);
        let measured = Measured::of(&(family.sheet)(128), &all);
        println!("| {} | {}", family.name, measured.row(1.0));
    }
    println!();
    heading("The same where every choice is visited, scaled from 1,024 choices");
    let mut worst = (0.0, None);
    for family in visited::large() {
        let measured = Measured::of(&family.rules, &(family.ranges)((64, SOME)));
        println!("| {}: {} | {}", family.name, family.what, measured.row(64.0));
        if worst.0 < measured.library {
            worst = (measured.library, Some(family));
        }
    }
    println!();
    if let Some(family) = worst.1 {
        heading("The worst of them with 65,536 choices");
        visited_row(&family, 64);
        println!();
    }
    heading("Columns of 20 tokens under 20 rules, 65,536 choices");
    let measured = Measured::of(&(VERDICT[3].sheet)(20), &ranges(20, 1, ALL));
    println!("| {} | {}", VERDICT[3].name, measured.row(1.0));
    for family in visited::usual() {
        visited_row(&family, 20);
    }
    println!();
}

fn visited_row(family: &Family, tokens: usize) {
    let measured = Measured::of(&family.rules, &(family.ranges)((tokens, ALL)));
    println!("| {}: {} | {}", family.name, family.what, measured.row(1.0));
}
