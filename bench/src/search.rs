//! Table e, its second half: a search for bad sheets.

use bench::clock::cpu_seconds;
use bench::library::LINKED;
use bench::random::{rule_line, rule_sheet, Random};

use crate::calls;
use crate::tables::shown;

/// The search's tries.
const TRIES: usize = 500;

/// A try is given up when it takes so many times the fills of the worst so far,
/// and not before it takes the second number: it is the worst then.
const MOST_TIMES: u64 = 4;
const LEAST_LIMIT: u64 = 10_000;

/// The search's sheets have at most so many rules, nonterminals and terminals.
const RULES: usize = 12;
const NONTERMINALS: u64 = 5;
const TERMINALS: u64 = 7;

/// A sheet of the search, with the fills of its sweep as far as it was tried.
struct Tried {
    lines: Vec<String>,
    bound: u64,
    fills: u64,
    seconds: f64,
}

/// (e) The worst accepted sheet that a random search finds. Half of the tries
/// are new sheets, half the worst one so far with one line changed. Half of the
/// time is for the tries, half for the worst sheet's whole sweep.
pub fn search(most_seconds: f64) {
    println!("(e) The worst of {TRIES} random sheets, at its largest bound\n");
    let begin = cpu_seconds();
    let mut random = Random::new(2023);
    let mut worst = Tried { lines: Vec::new(), bound: 0, fills: 0, seconds: 0.0 };
    let (mut tries, mut accepted) = (0, 0);
    while tries < TRIES && cpu_seconds() - begin < most_seconds / 2.0 {
        tries += 1;
        let lines = if worst.fills > 0 && random.below(2) == 0 {
            changed(&mut random, &worst.lines)
        } else {
            fresh(&mut random)
        };
        let Some(tried) = tried(lines, LEAST_LIMIT.max(MOST_TIMES * worst.fills)) else {
            continue;
        };
        accepted += 1;
        if worst.fills < tried.fills {
            worst = tried;
        }
    }
    println!("{tries} tries, {accepted} of them accepted sheets.\n");
    if worst.fills > 0 {
        report(&worst, most_seconds - (cpu_seconds() - begin));
    }
}

fn fresh(random: &mut Random) -> Vec<String> {
    let count = 3 + random.below(RULES as u64 - 2);
    let nonterminals = 2 + random.below(NONTERMINALS - 1);
    let terminals = 1 + random.below(TERMINALS);
    (0..count).map(|_| rule_line(random, nonterminals, terminals)).collect()
}

/// The lines with one more, one less or one other.
fn changed(random: &mut Random, lines: &[String]) -> Vec<String> {
    let mut lines = lines.to_vec();
    let at = random.below(lines.len() as u64) as usize;
    let line = rule_line(random, NONTERMINALS, TERMINALS);
    match random.below(3) {
        0 if lines.len() < RULES => lines.insert(at, line),
        1 => {
            lines.remove(at);
        }
        _ => lines[at] = line,
    }
    lines
}

/// What a sheet's sweep takes, if the sheet is accepted.
fn tried(lines: Vec<String>, most_fills: u64) -> Option<Tried> {
    let rules = rule_sheet(&lines);
    let (_, bound) = calls::largest_bound(&rules)?;
    let (swept, seconds) = calls::swept(&rules, bound, most_fills);
    Some(Tried { lines, bound, fills: swept.fills, seconds })
}

/// Sweep the worst sheet whole, as far as the seconds last.
fn report(worst: &Tried, seconds: f64) {
    let rules = rule_sheet(&worst.lines);
    let most_fills = (seconds * worst.fills as f64 / worst.seconds) as u64;
    let (swept, seconds) = calls::swept(&rules, worst.bound, most_fills);
    let end = match (swept.finished, swept.found) {
        (false, _) => "not at its end",
        (true, None) => "clear",
        (true, Some(_)) => "two",
    };
    // The library cannot be stopped.
    let library = (LINKED && swept.finished)
        .then(|| calls::of_a_sweep("", rules.clone(), worst.bound).seconds(0));
    println!(
        "Worst: k = {}, {} fills, {end}; CPU s: twin {seconds:.3}, library {}; \
         microseconds a fill: twin {:.2}, library {}:\n",
        worst.bound,
        swept.fills,
        shown(library, 1.0, 3),
        1e6 * seconds / swept.fills as f64,
        shown(library, 1e-6 * swept.fills as f64, 2),
    );
    println!("```\n{}```\n", String::from_utf8_lossy(&rules));
}
