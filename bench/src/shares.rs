//! Table i: a sweep's largest length divided among racks, beside the whole
//! sweep. There is no twin of it.

use bench::clock::timed;
use bench::library::{self, FOUND};

use crate::calls::{self, answer, Input};

/// (i) All shares of the largest length that is taken on.
pub fn shares() {
    println!("(i) Shares of the paper's sheets at their largest bound\n");
    println!(
        "| sheet | n | sweep | CPU s | racks | shares that report | slowest, CPU s | all, CPU s |"
    );
    println!("|---|---|---|---|---|---|---|---|");
    let (mut words, mut found) = (vec![0; 58], [0; FOUND]);
    for call in calls::of_the_paper() {
        let Input::Bound(bound) = call.input else { continue };
        let (sweep, word) = timed(|| library::sweep(&call.rules, bound, &mut words, &mut found));
        let said = answer(word.expect("linked"));
        for racks in [1, 12, 64_usize] {
            let (mut slowest, mut all, mut reports) = (0.0_f64, 0.0, 0);
            for index in 0..racks {
                let numbers = [bound as usize, racks, index];
                let (seconds, (word, _)) =
                    timed(|| library::share(&call.rules, numbers, &mut words, &mut found));
                slowest = slowest.max(seconds);
                all += seconds;
                reports += usize::from(answer(word) == "two");
            }
            println!("| {} | {bound} | {said} | {sweep:.4} | {racks} | {reports} | {slowest:.4} | {all:.4} |", call.name);
        }
    }
    println!();
}
