//! Compares the library with an unrelated implementation.
//!
//! Standard input holds questions, each with that implementation's answer in
//! the line after it, as `compare/ask.py` writes them. Prints how often each
//! answer was met, and the first input that the library answers otherwise. The
//! exit status is 1 where there is one, and where `--every-answer` is said and
//! an answer was never met.
//!
//! `compare FILE [--every-answer]`: FILE holds the question of the call that is
//! being made, for the case that the call does not come back.

mod lent;
mod question;
mod tally;

use std::fs::{self, File};
use std::io::{self, BufRead, Seek, Write};
use std::process::ExitCode;

use question::Question;
use tally::Tally;

/// An input that the library answers otherwise.
struct Difference {
    question: String,
    wanted: String,
    got: String,
}

/// Asks the library; `Err` where it does not answer what is wanted.
fn compared(question: &str, wanted: &str) -> Result<(), Difference> {
    let got = Question::read(question).answer();
    if got == wanted {
        return Ok(());
    }
    Err(Difference { question: question.to_string(), wanted: wanted.to_string(), got })
}

fn shown(difference: &Difference) {
    let Difference { question, wanted, got } = difference;
    println!("The first difference is at the question");
    println!("{question}");
    println!("{}", Question::read(question).sheets());
    println!("reference: {wanted}");
    println!("library:   {got}");
    println!("To ask it again: bin/compare - <<< '{question}'");
}

/// Puts the question into the file, in place of the one before.
fn keep(mut file: &File, question: &str) -> io::Result<()> {
    file.rewind()?;
    file.write_all(question.as_bytes())?;
    file.write_all(b"\n")?;
    file.set_len(question.len() as u64 + 1)
}

/// Reads questions and answers, and counts.
fn run(current: &str) -> io::Result<(Tally, Vec<Difference>)> {
    let (mut tally, mut differences) = (Tally::new(), Vec::new());
    let file = File::create(current)?;
    let mut lines = io::stdin().lock().lines();
    while let Some(question) = lines.next() {
        let question = question?;
        let wanted = lines.next().expect("an answer after each question")?;
        keep(&file, &question)?;
        tally.count(&question, &wanted);
        differences.extend(compared(&question, &wanted).err());
    }
    fs::remove_file(current)?;
    Ok((tally, differences))
}

fn main() -> ExitCode {
    let words: Vec<String> = std::env::args().skip(1).collect();
    let (current, every) = match &words[..] {
        [current] => (current, false),
        [current, word] if word == "--every-answer" => (current, true),
        _ => panic!("usage: compare FILE [--every-answer]"),
    };
    let (tally, differences) = run(current).expect("questions can be read and kept");
    tally.show();
    if let Some(first) = differences.first() {
        shown(first);
    }
    let missing = if every { tally.never_met() } else { Vec::new() };
    for answer in &missing {
        println!("never met: {answer}");
    }
    println!("{} inputs, {} differences", tally.total(), differences.len());
    ExitCode::from(u8::from(!differences.is_empty() || !missing.is_empty()))
}

#[cfg(test)]
mod tests {
    use super::*;
    use question::hexed;

    const RULES: &[u8] = b"left kind first second lay\n0 B 0 0 none\n0 A 0 - none\n";
    const TOKENS: &[u8] = b"term line col\n0 1 1\n0 1 2\n0 1 3\n";

    /// The worked example of docs/FORMAT.md, asked in every call, with its answers.
    fn worked() -> [(String, String); 9] {
        let (rules, tokens) = (hexed(RULES), hexed(TOKENS));
        let words = "words 0 0 1 0 1 0 1 0 1 0 1 0 1 1";
        let rows = "rows 5 5 first 0003000300010001000301020001010100010201 \
                    second 0003000300030002000100010001010100010201";
        let sentence = "sentence 3 0/1/1 0/1/2 0/1/3 0/0/0 0/0/0 0/0/0 0/0/0";
        [
            (format!("verdict {rules} {tokens} 14 1"), format!("two 0 {words}")),
            (format!("trees {rules} {tokens} 14 20 20 1"), format!("two 0 {rows} {words}")),
            (format!("line {rules} {tokens}"), "refused-21 0 rules 0 0 -".to_string()),
            (
                format!("sweep {rules} 3 14 1"),
                format!("two 0 {sentence} tried 11 words{}", " 0".repeat(14)),
            ),
            (format!("rows {rules} {tokens} 14 1"), format!("two 0 counts 5 5 {words}")),
            (
                format!("places {rules} {tokens} 14 4 1"),
                format!("two 0 places 1 list 00000300 {words}"),
            ),
            (
                format!("always {rules} 73730 5 1"),
                "unknown 0 entries 1 list 0001010100 words 73728*0 \
                 a55fa2a6ca2c982a 43971c604977143f"
                    .to_string(),
            ),
            (
                format!("clause-line {} {tokens}", hexed(b"left clause\n0 \n")),
                "refused-41 2 rules 12 2 3020".to_string(),
            ),
            (
                format!("expand {} 4 1", hexed(b"left clause\n0 t0\n")),
                "refused-22 0 bytes 0 sheet 00000000".to_string(),
            ),
        ]
    }

    #[test]
    fn worked_example_is_no_difference() {
        for (question, wanted) in worked() {
            let got = compared(&question, &wanted).err().map(|difference| difference.got);
            assert_eq!(got, None, "{wanted}");
        }
    }

    #[test]
    fn every_altered_answer_is_a_difference() {
        for (question, wanted) in worked() {
            for at in 0..wanted.len() {
                let mut altered = wanted.clone().into_bytes();
                altered[at] ^= 1;
                let altered = String::from_utf8(altered).expect("plain text");
                assert!(compared(&question, &altered).is_err(), "{altered}");
            }
            assert!(compared(&question, &format!("{wanted} 0")).is_err());
        }
    }

    #[test]
    fn an_answer_that_is_never_met_is_named() {
        let mut tally = Tally::new();
        for (question, wanted) in worked() {
            tally.count(&question, &wanted);
        }
        let missing = tally.never_met();
        assert_eq!(tally.total(), 9);
        assert!(missing.contains(&"trees refused-22".to_string()));
        assert!(!missing.contains(&"trees two".to_string()));
    }
}
