//! Table h: the calls on clause sheets beside the verdict on their expansions.
//! There is no twin of them.

use bench::clauses::CLAUSES;
use bench::families;
use bench::library;

use crate::calls::{least, WORDS};

/// Bytes enough for an expanded rule sheet.
const SHEET: usize = 4096;

/// (h) The largest clause sheets beside the rule sheets that they expand to.
pub fn clause_sheets() {
    println!("(h) Verdicts under clause sheets and under their expansions, CPU ms\n");
    print!("| clause sheet | what it has | bytes | rules | expand ");
    print!("| no tokens, clauses | no tokens, expansion ");
    println!("| 64 tokens, clauses | 64 tokens, expansion |");
    println!("|---|---|---|---|---|---|---|---|---|");
    for each in &CLAUSES {
        let (clauses, mut rules) = ((each.sheet)(), vec![0; SHEET]);
        let (word, count) = library::expand(&clauses, &mut rules);
        assert_eq!(word >> 32, 4, "{}: given", each.name);
        let time = least(|| library::expand(&clauses, &mut rules));
        let rules = &rules[..count];
        let lines = rules.iter().filter(|&&byte| byte == b'\n').count();
        let [none, many] = [0, 64].map(|n| beside(&clauses, rules, &families::sentence(n, 1)));
        println!(
            "| {} | {} | {} | {} | {time:.3} | {:.3} | {:.3} | {:.2} | {:.2} |",
            each.name,
            each.what,
            clauses.len(),
            lines - 1,
            none[0],
            none[1],
            many[0],
            many[1],
        );
    }
    println!();
}

/// The least CPU milliseconds of the verdict under a clause sheet and under its
/// expansion, which must be the same, word for word.
fn beside(clauses: &[u8], rules: &[u8], tokens: &[u8]) -> [f64; 2] {
    let (mut ours, mut theirs) = (vec![0; WORDS], vec![0; WORDS]);
    let said = library::clause_verdict(clauses, tokens, &mut ours);
    assert!(Some(said) == library::verdict(rules, tokens, &mut theirs) && ours == theirs);
    [
        least(|| library::clause_verdict(clauses, tokens, &mut ours)),
        least(|| library::verdict(rules, tokens, &mut theirs)),
    ]
}
