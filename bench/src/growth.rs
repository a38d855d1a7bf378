//! Table d: how the cost grows, of the library where it is linked, else of the
//! twin.

use bench::families::{self, Family};
use bench::late;
use bench::library::LINKED;
use bench::twin::sweep;

use crate::calls::{self, Call};
use crate::tables::shown;

/// Whose times these are.
const WHOSE: &str = if LINKED { "library" } else { "twin" };

/// (d) Growth of the verdict and of the sweep.
pub fn growth() {
    verdict_growth(families::named("dense"));
    verdict_growth(families::named("binary chain"));
    line_growth();
    sweep_growth("statements", "most prefixes are ruled out", late::statements);
    sweep_growth("apart", "readings differ by the last token", late::apart);
}

/// Tokens on lines of their own, under offside and offalign rules.
fn line_growth() {
    println!("(d) CPU ms of a verdict by tokens, each on a line of its own, and offside and offalign rules, {WHOSE}\n");
    verdict_rows(calls::of_lines);
    println!("(d) The same under 128 rules: marks walked anew for each span, and carried\n");
    println!(
        "| tokens | walked, twin, CPU ms | carried, twin, CPU ms | carried, library, CPU ms |"
    );
    println!("|---|---|---|---|");
    for tokens in [8, 16, 32, 64] {
        let call = calls::of_lines(128, tokens);
        let times = call.times(ROUNDS);
        println!(
            "| {tokens} | {:.3} | {:.3} | {} |",
            1e3 * call.seconds_walked(ROUNDS),
            1e3 * times.twin,
            shown(times.library, 1e-3, 3),
        );
    }
    println!();
}

/// Rounds of a measurement.
const ROUNDS: usize = 5;

fn verdict_growth(family: &Family) {
    println!("(d) CPU ms of a verdict by tokens and rules, {}, {WHOSE}\n", family.name);
    verdict_rows(|rules, tokens| calls::of_a_family(family, rules, tokens));
}

fn verdict_rows(call: impl Fn(usize, usize) -> Call) {
    println!("| tokens | 16 rules | 32 rules | 64 rules | 128 rules |");
    println!("|---|---|---|---|---|");
    for tokens in [8, 16, 32, 64] {
        print!("| {tokens} |");
        for rules in [16, 32, 64, 128] {
            let seconds = call(rules, tokens).seconds(3);
            print!(" {:.3} |", 1e3 * seconds);
        }
        println!();
    }
    println!();
}

/// The most fills of a sweep in the growth tables.
const MOST_FILLS: u64 = 2_500_000;

fn sweep_growth(name: &str, what: &str, sheet: fn(usize) -> Vec<u8>) {
    println!("(d) Fills and CPU ms of a sweep by T and k, {name}: {what}, {WHOSE}\n");
    println!("| k | T = 2 | T = 3 | T = 4 | T = 5 | T = 6 | T = 7 | T = 14 | T = 28 |");
    println!("|---|---|---|---|---|---|---|---|---|");
    for k in 2..=6 {
        print!("| {k} |");
        for t in [2, 3, 4, 5, 6, 7, 14, 28] {
            print!(" {} |", growth_cell(sheet(t), t as u64, k));
        }
        println!();
    }
    println!();
}

/// Only sweeps that the twin ends are made of the library, which cannot be
/// stopped.
fn growth_cell(rules: Vec<u8>, t: u64, k: u64) -> String {
    if !sweep::within_limit(t, k) {
        return "refused".to_string();
    }
    let (swept, _) = calls::swept(&rules, k, MOST_FILLS);
    if !swept.finished {
        return format!("over {MOST_FILLS}");
    }
    let seconds = calls::of_a_sweep("", rules, k).seconds(1);
    format!("{}, {:.2}", swept.fills, 1e3 * seconds)
}
