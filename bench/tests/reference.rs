//! The twin against the reference.

mod common;

use std::fmt::Write as _;
use std::io::Write as _;
use std::process::{Command, Stdio};

use bench::twin::{self, sheets::Refusal, Swept, Verdict};
use common::{cases, shown, Case, LENT, PAPER};

/// A sheet in base 16, or `-` for none.
fn hex(sheet: &[u8]) -> String {
    if sheet.is_empty() {
        return "-".to_string();
    }
    sheet.iter().map(|byte| format!("{byte:02x}")).collect()
}

impl Case {
    /// The line that asks the reference.
    fn question(&self) -> String {
        match self {
            Case::Verdict(rules, tokens, lent) => {
                format!("verdict {} {} {lent}", hex(rules), hex(tokens))
            }
            Case::Sweep(rules, bound, lent) => format!("sweep {} {bound} {lent}", hex(rules)),
        }
    }

    /// The twin's answer, as the reference's is written.
    fn answer(&self) -> String {
        match self {
            Case::Verdict(rules, tokens, lent) => {
                let mut words = vec![LENT; *lent];
                let said = verdict_text(twin::verdict(rules, tokens, &mut words));
                format!("{said} words{}", words_text(&words))
            }
            Case::Sweep(rules, bound, lent) => {
                let mut words = vec![LENT; *lent];
                let said = sweep_text(twin::sweep(rules, *bound, &mut words));
                format!("{said} words{}", words_text(&words))
            }
        }
    }
}

fn words_text(words: &[u64]) -> String {
    words.iter().map(|word| format!(" {word:x}")).collect()
}

fn refusal_text(refusal: Refusal) -> String {
    format!("refused-{} {}", refusal.number, refusal.line)
}

fn verdict_text(answer: Result<Verdict, Refusal>) -> String {
    match answer {
        Ok(Verdict::None) => "none 0".to_string(),
        Ok(Verdict::One) => "one 0".to_string(),
        Ok(Verdict::Two) => "two 0".to_string(),
        Err(refusal) => refusal_text(refusal),
    }
}

fn sweep_text(answer: Result<Swept, Refusal>) -> String {
    match answer {
        Ok(Swept { found: None, tried, .. }) => format!("clear 0 tried {tried}"),
        Ok(Swept { found: Some(tokens), tried, .. }) => {
            let mut text = "two 0".to_string();
            for token in tokens {
                let (line, column, width) = (token.line.0, token.column.0, token.width.0);
                write!(text, " {}/{line}/{column}/{width}", token.terminal)
                    .expect("a string grows");
            }
            text + &format!(" tried {tried}")
        }
        Err(refusal) => refusal_text(refusal),
    }
}

/// The reference's answers, each of which must be the twin's too.
fn compared(cases: &[Case]) -> Vec<String> {
    let questions: String = cases.iter().map(|case| case.question() + "\n").collect();
    let answers = reference(&questions);
    assert_eq!(answers.len(), cases.len());
    for (case, wanted) in cases.iter().zip(&answers) {
        assert_eq!(&case.answer(), wanted, "{}", shown(case));
    }
    answers
}

fn reference(questions: &str) -> Vec<String> {
    let script = concat!(env!("CARGO_MANIFEST_DIR"), "/tests/ask.py");
    let mut child = Command::new("python3")
        .arg(script)
        .stdin(Stdio::piped())
        .stdout(Stdio::piped())
        .spawn()
        .expect("python3 runs");
    let mut input = child.stdin.take().expect("a pipe");
    input.write_all(questions.as_bytes()).expect("the reference reads");
    drop(input);
    let output = child.wait_with_output().expect("the reference ends");
    assert!(output.status.success());
    let text = String::from_utf8(output.stdout).expect("plain text");
    text.lines().map(str::to_string).collect()
}

/// Is this answer met at least so many times?
fn assert_met(answers: &[String], answer: &str, times: usize) {
    let start = format!("{answer} ");
    let met = answers.iter().filter(|line| line.starts_with(&start)).count();
    assert!(met >= times, "{answer}: {met}");
}

#[test]
fn twin_answers_as_the_reference() {
    let answers = compared(&cases());

    assert!(answers[0].starts_with("two 0 1/1/1/1 0/2/1/1 0/3/1/1 "), "{}", answers[0]);
    assert!(answers[1..PAPER.len()].iter().all(|answer| answer.starts_with("clear 0 ")));
    for answer in ["none 0", "one 0", "two 0", "clear 0"] {
        assert_met(&answers, answer, 50);
    }
    for number in [1, 2, 3, 4, 5, 6, 7, 11, 12, 13, 14, 15, 21, 23, 24] {
        assert_met(&answers, &format!("refused-{number}"), 1);
    }
}
