//! Table f: the calls about one sentence's trees, and the change of a mark,
//! beside the verdict. There is no twin of them.

use bench::families::{self, Family};
use bench::library;

use crate::calls::{answer, least, WORDS};

/// Places for a list of all nonterminals over all words of 64 tokens.
const PLACES: usize = 64 * 2081;

/// Rows enough for the trees of all families.
const ROWS: usize = 16_384;

/// User 5 may see all nonterminals, or those below 32.
const OPEN: &[u8] = b"user low high may\n5 0 63 change\n";
const HALF: &[u8] = b"user low high may\n5 0 31 see\n";

/// Bytes enough for a changed rule sheet.
const SHEET: usize = 4096;

/// (f) Row counts, places, trees, trees shown and changed marks of the largest
/// sheets.
pub fn trees() {
    println!("(f) Rows, places, trees, show and change of 64 tokens under 128 rules, CPU ms\n");
    print!("| family | answer | verdict | rows | places | number of places ");
    println!(
        "| trees | show, all open | show, half closed | rows of trees | rows shown | change |"
    );
    println!("|---|---|---|---|---|---|---|---|---|---|---|---|");
    families::VERDICT.iter().for_each(family_row);
    println!();
}

/// A row of table f. With all open, `show` must answer as `trees`.
fn family_row(family: &Family) {
    let (rules, tokens) = ((family.sheet)(128), families::sentence(64, family.terminals));
    let (rules, tokens) = (rules.as_slice(), tokens.as_slice());
    let (mut words, mut list, mut bytes) = (vec![0; WORDS], vec![0; 3 * PLACES], vec![0; SHEET]);
    let (mut first, mut second) = (vec![0; 4 * ROWS], vec![0; 4 * ROWS]);
    let (word, count) = library::places(rules, tokens, &mut words, &mut list);
    let whole = library::trees(rules, tokens, &mut words, &mut first, &mut second);
    let mut show =
        |rights| library::show([rules, tokens, rights], 5, &mut words, &mut first, &mut second);
    assert!(whole.0 == word && show(OPEN) == whole, "{}: all open is the trees", family.name);
    let shown = show(HALF).1;
    let times = [least(|| show(OPEN)), least(|| show(HALF))];
    print!(
        "| {} | {} | {:.2} | {:.2} | {:.2} | {count} |",
        family.name,
        answer(word),
        least(|| library::verdict(rules, tokens, &mut words)),
        least(|| library::rows(rules, tokens, &mut words)),
        least(|| library::places(rules, tokens, &mut words, &mut list)),
    );
    println!(
        " {:.2} | {:.2} | {:.2} | {}, {} | {}, {} | {:.3} |",
        least(|| library::trees(rules, tokens, &mut words, &mut first, &mut second)),
        times[0],
        times[1],
        whole.1[0],
        whole.1[1],
        shown[0],
        shown[1],
        least(|| library::change(rules, OPEN, [5, 1], b"none", &mut bytes)),
    );
}
