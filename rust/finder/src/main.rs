//! The program `finder`: a rule sheet or a clause sheet on standard input, and on standard output
//! `two` and a sentence with two trees, `unknown`, or the library's refusal.

use std::io::{self, Read, Write};
use std::process::ExitCode;
use std::time::Duration;

use finder::{places, Finder, Found, Guide, Limits, Stop};
use teplonga::{clauses, verdict, words_for, Reply, MOST_TOKENS};

const USAGE: &str = "usage: finder [--seconds S] [--to N] [--memory MB] [--solver PROGRAM] \
    [--guide always|none] < SHEET";

/// The most bytes of an input, as of the other programs.
const MOST_INPUT: usize = 16_384;

/// Exit status of bad usage, and where there is no answer.
const BAD_USAGE: u8 = 2;
const NO_ANSWER: u8 = 3;

/// What is asked for.
struct Options {
    seconds: f64,
    to: usize,
    memory: usize,
    solver: Option<String>,
    is_guided: bool,
}

impl Options {
    /// The options of these words; none where they are no options.
    fn of(words: &[String]) -> Option<Options> {
        let mut options =
            Options { seconds: 10.0, to: 24, memory: 512, solver: None, is_guided: true };
        for pair in words.chunks(2) {
            let [name, value] = pair else { return None };
            match name.as_str() {
                "--seconds" => options.seconds = seconds(value)?,
                "--to" => options.to = number(value, 1, MOST_TOKENS)?,
                "--memory" => options.memory = number(value, 1, 8192)?,
                "--solver" => options.solver = Some(value.clone()),
                "--guide" => options.is_guided = guided(value)?,
                _ => return None,
            }
        }
        Some(options)
    }
}

/// A number of digits, with or without a point in it, of at most a day.
fn seconds(word: &str) -> Option<f64> {
    let plain = word.bytes().all(|byte| byte.is_ascii_digit() || byte == b'.');
    let value: f64 = word.parse().ok().filter(|_| plain)?;
    (value <= 86_400.0).then_some(value)
}

/// Is the test for every length to guide the search?
fn guided(word: &str) -> Option<bool> {
    match word {
        "always" => Some(true),
        "none" => Some(false),
        _ => None,
    }
}

fn number(word: &str, least: usize, most: usize) -> Option<usize> {
    let plain = word.bytes().all(|byte| byte.is_ascii_digit());
    let value = word.parse().ok().filter(|_| plain)?;
    (least..=most).contains(&value).then_some(value)
}

/// The rule sheet of an input, which a clause sheet stands for too; or the answer that refuses it.
fn rules_of(input: Vec<u8>) -> Result<Vec<u8>, String> {
    if input.len() > MOST_INPUT {
        return Err("refused-31 0".to_string());
    }
    let (Reply { answer, line }, rules) = if input.starts_with(b"left clause\n") {
        let mut lent = [0; clauses::MOST_EXPANDED];
        let reply = clauses::expand(&input, &mut lent);
        (Reply { answer: reply.answer, line: reply.line }, reply.sheet.to_vec())
    } else {
        // the rule sheet is looked at before the token sheet, which has no tokens
        (verdict(&input, b"term line col\n", &mut vec![0; words_for(0)]), input)
    };
    match answer.is_refused() {
        true => Err(format!("{answer} {line}")),
        false => Ok(rules),
    }
}

/// What came of looking. The guide's time counts too.
fn looked(rules: &[u8], options: &Options, limits: &mut Limits) -> Found {
    let guide = if options.is_guided { places(rules, limits) } else { Ok(Guide::Everywhere) };
    match guide {
        Ok(guide) => Finder::new(rules, options.to, guide, options.solver.as_deref()).find(limits),
        Err(stop) => Found::Nothing { up_to: 0, unconfirmed: Vec::new(), stop: Some(stop) },
    }
}

/// What is said on standard error where nothing was found.
fn said(up_to: usize, unconfirmed: &[usize], stop: Option<&Stop>, options: &Options) -> String {
    let mut words = match up_to {
        0 => "nothing found".to_string(),
        1 => "nothing found up to 1 token".to_string(),
        _ => format!("nothing found up to {up_to} tokens"),
    };
    match stop {
        Some(Stop::Time) => words += &format!(": the {} seconds are over", options.seconds),
        Some(Stop::Memory) => words += &format!(": the {} MB are used up", options.memory),
        _ => {}
    }
    for length in unconfirmed {
        words += &format!("; what was found at {length} tokens has not two trees");
    }
    words
}

/// A line on standard error, if it can be written.
fn say(line: &str) {
    let _ = writeln!(io::stderr(), "{line}");
}

/// The program's output; a sentence where there is none.
fn output(input: Vec<u8>, options: &Options) -> Result<String, String> {
    let time = Duration::from_secs_f64(options.seconds);
    let mut limits = Limits::new(time, options.memory << 20);
    let rules = match rules_of(input) {
        Ok(rules) => rules,
        Err(refused) => return Ok(format!("answer line\n{refused}\n")),
    };
    match looked(&rules, options, &mut limits) {
        Found::Patch(patch) => return Ok(format!("answer line\ntwo 0\n{}", patch.sheet())),
        Found::Clear => say("nothing to be found: the test for every length says clear"),
        Found::Nothing { stop: Some(Stop::Solver(why)), .. } => return Err(why),
        Found::Nothing { up_to, unconfirmed, stop } => {
            say(&said(up_to, &unconfirmed, stop.as_ref(), options));
        }
    }
    Ok("answer line\nunknown 0\n".to_string())
}

/// Standard input, as far as it counts.
fn read() -> io::Result<Vec<u8>> {
    let mut input = Vec::new();
    io::stdin().take(MOST_INPUT as u64 + 1).read_to_end(&mut input)?;
    Ok(input)
}

fn write(output: &str) -> io::Result<()> {
    let mut out = io::stdout();
    out.write_all(output.as_bytes())?;
    out.flush()
}

fn run(options: &Options) -> Result<(), String> {
    let input = read().map_err(|error| format!("standard input: {error}"))?;
    let output = output(input, options)?;
    write(&output).map_err(|error| format!("standard output: {error}"))
}

fn main() -> ExitCode {
    let words: Result<Vec<String>, _> =
        std::env::args_os().skip(1).map(|it| it.into_string()).collect();
    let Some(options) = words.ok().and_then(|words| Options::of(&words)) else {
        say(USAGE);
        return ExitCode::from(BAD_USAGE);
    };
    match run(&options) {
        Ok(()) => ExitCode::SUCCESS,
        Err(why) => {
            say(&why);
            ExitCode::from(NO_ANSWER)
        }
    }
}
