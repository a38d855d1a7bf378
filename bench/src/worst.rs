//! Table e, its first half: sheets on which a sweep takes long, or could. Table
//! g: a sheet of even lengths.

use bench::late;

use crate::calls;
use crate::tables::{self, shown};

/// (e) Sheets whose readings differ by a late token.
pub fn late_sheets() {
    println!("(e) Sweeps of sheets whose readings differ by a late token\n");
    tables::sweeps(calls::of_late_sheets());
}

/// (e) Words of one rule: a sweep tries one of them.
pub fn words() {
    println!("(e) Sweeps of a heading with circuits, by the words that one A rule has\n");
    println!("| words | T | k | fills | twin, CPU ms | library, CPU ms |");
    println!("|---|---|---|---|---|---|");
    for t in [1, 60] {
        let rules = late::words(t);
        let (fills, call) =
            (calls::swept(&rules, 3, u64::MAX).0.fills, calls::of_a_sweep("", rules, 3));
        let times = call.times(5);
        println!(
            "| {t} | {} | 3 | {fills} | {:.4} | {} |",
            t + 1,
            1e3 * times.twin,
            shown(times.library, 1e-3, 4),
        );
    }
    println!();
}

/// (g) A sheet of even lengths only, with the index of lengths and without.
pub fn lengths() {
    println!("(g) Sweeps of `even`, with the index of lengths and without\n");
    print!("| T | k | candidates tried | fills | fills without ");
    println!("| twin, CPU ms | twin without, CPU ms | library, CPU ms |");
    println!("|---|---|---|---|---|---|---|---|");
    for (t, k) in [(2, 5), (2, 6), (7, 4), (7, 5), (28, 3), (28, 4)] {
        let call = calls::of_a_sweep("even", late::even(t), k);
        let (swept, _) = calls::swept(&call.rules, k, u64::MAX);
        let (fills, seconds) = call.over_all_lengths(5);
        let times = call.times(5);
        println!(
            "| {t} | {k} | {} | {} | {fills} | {:.4} | {:.4} | {} |",
            swept.tried,
            swept.fills,
            1e3 * times.twin,
            1e3 * seconds,
            shown(times.library, 1e-3, 4),
        );
    }
    println!();
}
