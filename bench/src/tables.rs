//! Tables a to c, as they stand in a text of Markdown.

use bench::families;
use bench::twin::sweep;

use crate::calls::{self, answer, Call, Input, Lent};

/// Rounds of a measurement.
const ROUNDS: usize = 5;

/// A time of the library in the given unit of seconds, where it is linked.
pub fn shown(seconds: Option<f64>, unit: f64, digits: usize) -> String {
    seconds.map_or("-".to_string(), |seconds| format!("{:.digits$}", seconds / unit))
}

/// (a) The paper's sheets at their largest bound.
pub fn paper() {
    println!("(a) Sweeps of the paper's sheets\n");
    sweeps(calls::of_the_paper());
}

/// A row for each sweep, up to the sheet's largest bound.
pub fn sweeps(calls: Vec<Call>) {
    println!("| sheet | T | k | arrangements | answer | fills | twin, CPU s | library, CPU s |");
    println!("|---|---|---|---|---|---|---|---|");
    for call in calls {
        let (t, bound) = calls::largest_bound(&call.rules).expect("the sheet is accepted");
        let fills = calls::swept(&call.rules, bound, u64::MAX).0.fills;
        let times = call.times(ROUNDS);
        println!(
            "| {} | {t} | {bound} | {} | {} | {fills} | {:.6} | {} |",
            call.name,
            sweep::arrangements(t, bound),
            answer(call.twin(&mut Lent::new())),
            times.twin,
            shown(times.library, 1.0, 6),
        );
    }
    println!();
}

/// The verdicts of the largest sheets of all families.
fn largest_verdicts() -> impl Iterator<Item = Call> {
    families::VERDICT.iter().map(|family| calls::of_a_family(family, 128, 64))
}

/// (b) Verdicts of the largest sheets.
pub fn verdicts() {
    println!("(b) Verdict of 64 tokens under 128 rules\n");
    print!("| family | what it has | answer | plain, CPU ms | twin, CPU ms ");
    println!("| library, CPU ms | plain/library |");
    println!("|---|---|---|---|---|---|---|");
    let mut worst = (0.0, "");
    for (family, call) in families::VERDICT.iter().zip(largest_verdicts()) {
        let said = answer(call.twin(&mut Lent::new()));
        let times = call.times(ROUNDS);
        let plain = call.seconds_plain(ROUNDS);
        println!(
            "| {} | {} | {said} | {:.2} | {:.3} | {} | {} |",
            family.name,
            family.what,
            1e3 * plain,
            1e3 * times.twin,
            shown(times.library, 1e-3, 3),
            times.library.map_or("-".to_string(), |library| format!("{:.1}", plain / library)),
        );
        let seconds = times.library.unwrap_or(times.twin);
        if worst.0 < seconds {
            worst = (seconds, family.name);
        }
    }
    println!("\nWorst: {}, {:.2} ms.\n", worst.1, 1e3 * worst.0);
}

/// (c) The library beside the twin.
pub fn ratios() {
    println!("(c) The library beside the twin\n");
    if !bench::library::LINKED {
        println!("The library is not linked.\n");
        return;
    }
    println!("| call | twin, CPU ms | library, CPU ms | library/twin |");
    println!("|---|---|---|---|");
    let sweeps = calls::of_the_paper().into_iter().chain(calls::of_late_sheets());
    for call in sweeps.chain(largest_verdicts()).chain([calls::of_lines(128, 64)]) {
        let times = call.times(ROUNDS);
        println!(
            "| {} | {:.3} | {} | {} |",
            title(&call),
            1e3 * times.twin,
            shown(times.library, 1e-3, 3),
            shown(times.library, times.twin, 2),
        );
    }
    println!();
}

fn title(call: &Call) -> String {
    match call.input {
        Input::Tokens(_) => format!("verdict, {}", call.name),
        Input::Bound(bound) => format!("sweep, {}, k = {bound}", call.name),
    }
}
