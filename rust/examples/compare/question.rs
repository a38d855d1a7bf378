//! Questions and the library's answers, written as `compare/ask.py` does.

use std::fmt::{Display, Write};
use std::str::FromStr;

use teplonga::{always, change, clauses, columns, columns_refused_line, merge, places, rows};
use teplonga::{refused_line, sweep, trees, verdict};
use teplonga::{share, show};
use teplonga::{words_for, MOST_BOUND};
use teplonga::{AlwaysReply, Reply, RowCount, Rows, ShareReply, SweepReply, Token, TreesReply};

use crate::lent::{self, Lent};

/// The calls that both kinds of sheet have.
struct Calls {
    verdict: fn(&[u8], &[u8], &mut [u64]) -> Reply,
    trees: for<'a> fn(&[u8], &[u8], &mut [u64], &'a mut [u8], &'a mut [u8]) -> TreesReply<'a>,
    sweep: fn(&[u8], usize, &mut [u64]) -> SweepReply,
    refused_line: for<'a> fn(&'a [u8], &'a [u8]) -> &'a [u8],
    always: for<'a> fn(&[u8], &mut [u64], &'a mut [u8]) -> AlwaysReply<'a>,
}

const OF_RULES: Calls = Calls { verdict, trees, sweep, refused_line, always };

const OF_CLAUSES: Calls = Calls {
    verdict: clauses::verdict,
    trees: clauses::trees,
    sweep: clauses::sweep,
    refused_line: clauses::refused_line,
    always: clauses::always,
};

/// A call with its sheets and its numbers.
pub struct Question<'a> {
    call: &'a str,
    sheets: Vec<Vec<u8>>,
    numbers: Vec<u64>,
}

impl Question<'_> {
    /// The question of a line. A line that is none ends the program.
    pub fn read(line: &str) -> Question<'_> {
        let mut fields = line.split(' ');
        let call = fields.next().expect("a line has a first word");
        let count = match call.trim_start_matches("clause-") {
            "show" | "change" => 3,
            "verdict" | "trees" | "line" | "rows" | "places" | "columns" => 2,
            "sweep" | "expand" | "share" | "merge" | "always" => 1,
            _ => panic!("no question: {line}"),
        };
        let sheets = fields.by_ref().take(count).map(sheet).collect();
        Question { call, sheets, numbers: fields.map(number).collect() }
    }

    /// The sheets as text.
    pub fn sheets(&self) -> String {
        let text = |bytes: &Vec<u8>| bytes.escape_ascii().to_string().replace("\\n", "\\n\n");
        self.sheets.iter().map(text).collect::<Vec<String>>().join("\n")
    }

    /// All that the library answers, and the lent memory after the call.
    pub fn answer(&self) -> String {
        let lent: Vec<Lent<u8>> = self.sheets.iter().map(|bytes| lent::sheet(bytes)).collect();
        let sheets: Vec<&[u8]> = lent.iter().map(Lent::part).collect();
        let calls = if self.call.starts_with("clause-") { OF_CLAUSES } else { OF_RULES };
        let call = self.call.trim_start_matches("clause-");
        match (call, &sheets[..], &self.numbers[..]) {
            ("verdict", &[rules, tokens], &[words, salt]) => {
                verdict_answer(&calls, rules, tokens, words, salt)
            }
            ("trees", &[rules, tokens], &[words, first, second, salt]) => {
                trees_answer(&calls, rules, tokens, words, [first, second], salt)
            }
            ("line", &[rules, tokens], []) => line_answer(&calls, rules, tokens),
            ("sweep", &[rules], &[bound, words, salt]) => {
                sweep_answer(&calls, rules, bound as usize, words, salt)
            }
            ("rows", &[rules, tokens], &[words, salt]) => rows_answer(rules, tokens, words, salt),
            ("places", &[rules, tokens], &[words, list, salt]) => {
                places_answer(rules, tokens, words, list, salt)
            }
            ("always", &[sheet], &[words, size, salt]) => {
                always_answer(&calls, sheet, words, size, salt)
            }
            ("expand", &[sheet], &[size, salt]) => expand_answer(sheet, size, salt),
            ("share", &[rules], &[length, racks, index, words, salt]) => {
                share_answer(rules, [length, racks, index], words, salt)
            }
            ("merge", &[rules], &[n, p, i, m, q, j]) => merge_answer(rules, [n, p, i], [m, q, j]),
            ("columns", &[rules, ranges], &[words, salt]) => {
                columns_answer(rules, ranges, words, salt)
            }
            ("show", &[rules, tokens, rights], &[user, words, first, second, salt]) => {
                show_answer([rules, tokens, rights], user, words, [first, second], salt)
            }
            ("change", &[rules, rights, lay], &[user, rule, size, salt]) => {
                change_answer([rules, rights, lay], [user, rule], size, salt)
            }
            _ => panic!("no question: {}", self.call),
        }
    }
}

fn number<T: FromStr>(field: &str) -> T {
    field.parse().unwrap_or_else(|_| panic!("no number: {field}"))
}

/// The bytes of a field in base 16; `-` is for none.
fn sheet(field: &str) -> Vec<u8> {
    if field == "-" {
        return Vec::new();
    }
    let byte = |at| u8::from_str_radix(&field[at..at + 2], 16).expect("digits of base 16");
    (0..field.len()).step_by(2).map(byte).collect()
}

/// Bytes in base 16, or `-`.
pub fn hexed(bytes: &[u8]) -> String {
    if bytes.is_empty() {
        return "-".to_string();
    }
    bytes.iter().fold(String::new(), |text, byte| put(text, format_args!("{byte:02x}")))
}

fn put(mut text: String, more: impl Display) -> String {
    write!(text, "{more}").expect("a string grows");
    text
}

fn shown_words(words: &[u64]) -> String {
    words.iter().fold("words".to_string(), |text, word| put(text, format_args!(" {word:x}")))
}

/// The same, with words that are the same together: `3*0` for three zeros.
fn shown_runs(words: &[u64]) -> String {
    let runs = words.chunk_by(|one, other| one == other);
    runs.fold("words".to_string(), |text, run| match run {
        [word] => put(text, format_args!(" {word:x}")),
        _ => put(text, format_args!(" {}*{:x}", run.len(), run[0])),
    })
}

/// A remark to an answer, where something beside the lent memory has changed.
fn remark(kept: bool) -> &'static str {
    if kept {
        ""
    } else {
        " CHANGED BESIDE LENT MEMORY"
    }
}

fn verdict_answer(calls: &Calls, rules: &[u8], tokens: &[u8], words: u64, salt: u64) -> String {
    let mut words = lent::words(salt, words as usize);
    let reply = (calls.verdict)(rules, tokens, words.part_mut());
    format!("{reply} {}{}", shown_words(words.part()), remark(words.sides_kept()))
}

fn trees_answer(
    calls: &Calls,
    rules: &[u8],
    tokens: &[u8],
    words: u64,
    rows: [u64; 2],
    salt: u64,
) -> String {
    let mut words = lent::words(salt, words as usize);
    let mut first = lent::bytes(salt + 1, rows[0] as usize);
    let mut second = lent::bytes(salt + 2, rows[1] as usize);
    let reply = (calls.trees)(rules, tokens, words.part_mut(), first.part_mut(), second.part_mut());
    let (text, rows) = reply_text(reply);
    with_memories(text, rows, [&first, &second], &words)
}

/// The answer, its line and the row counts; and the rows, as in memories.
fn reply_text(reply: TreesReply) -> (String, [Vec<u8>; 2]) {
    let counts = [reply.first.len(), reply.second.len()];
    let text = format!("{} {} rows {} {}", reply.answer, reply.line, counts[0], counts[1]);
    (text, [bytes_of(reply.first), bytes_of(reply.second)])
}

/// The tree memories and the words behind an answer.
fn with_memories(
    mut text: String,
    rows: [Vec<u8>; 2],
    [first, second]: [&Lent<u8>; 2],
    words: &Lent<u64>,
) -> String {
    text = put(text, format_args!(" first {}", hexed(first.part())));
    text = put(text, format_args!(" second {}", hexed(second.part())));
    text = put(text, format_args!(" {}", shown_words(words.part())));
    if !first.part().starts_with(&rows[0]) || !second.part().starts_with(&rows[1]) {
        text += " ROWS ARE NOT THE MEMORY'S";
    }
    text + remark(words.sides_kept() && first.sides_kept() && second.sides_kept())
}

/// Rows, written as in a tree memory.
fn bytes_of(rows: Rows) -> Vec<u8> {
    rows.flat_map(|row| [row.nonterminal, row.kind as u8, row.start, row.length]).collect()
}

/// The refused line and where it lies; before it, a verdict without words.
fn line_answer(calls: &Calls, rules: &[u8], tokens: &[u8]) -> String {
    let reply = (calls.verdict)(rules, tokens, &mut []);
    let line = (calls.refused_line)(rules, tokens);
    let (name, start) = match place(line, rules) {
        Some(start) => ("rules", start),
        None => ("tokens", place(line, tokens).expect("a part of one of the sheets")),
    };
    format!("{reply} {name} {start} {} {}", line.len(), hexed(line))
}

/// Where the line begins in the sheet, if it is a part of it.
fn place(line: &[u8], sheet: &[u8]) -> Option<usize> {
    let start = line.as_ptr().addr().checked_sub(sheet.as_ptr().addr())?;
    (start + line.len() <= sheet.len()).then_some(start)
}

fn sweep_answer(calls: &Calls, rules: &[u8], bound: usize, words: u64, salt: u64) -> String {
    let mut words = lent::words(salt, words as usize);
    let reply = (calls.sweep)(rules, bound, words.part_mut());
    let mut text = format!("{} {} sentence {}", reply.answer, reply.line, reply.length);
    for Token { terminal, line, column } in reply.places {
        text = put(text, format_args!(" {terminal}/{}/{}", line.0, column.0));
    }
    text = put(text, format_args!(" tried {}", reply.tried));
    format!("{text} {}{}", shown_words(words.part()), remark(words.sides_kept()))
}

fn rows_answer(rules: &[u8], tokens: &[u8], words: u64, salt: u64) -> String {
    let mut words = lent::words(salt, words as usize);
    let reply = rows(rules, tokens, words.part_mut());
    let [first, second] = [reply.first, reply.second].map(|count| match count {
        RowCount::Exact(count) => count.to_string(),
        RowCount::More => "more".to_string(),
    });
    let text = format!("{} {} counts {first} {second}", reply.answer, reply.line);
    format!("{text} {}{}", shown_words(words.part()), remark(words.sides_kept()))
}

fn places_answer(rules: &[u8], tokens: &[u8], words: u64, size: u64, salt: u64) -> String {
    let mut words = lent::words(salt, words as usize);
    let mut list = lent::bytes(salt + 1, size as usize);
    let reply = places(rules, tokens, words.part_mut(), list.part_mut());
    let mut text = format!("{} {} places {}", reply.answer, reply.line, reply.places.len());
    let entries = reply.places.flat_map(|place| [place.nonterminal, place.start, place.length]);
    let entries: Vec<u8> = entries.collect();
    text = put(text, format_args!(" list {} {}", hexed(list.part()), shown_words(words.part())));
    if !list.part().starts_with(&entries) {
        text += " PLACES ARE NOT THE MEMORY'S";
    }
    text + remark(words.sides_kept() && list.sides_kept())
}

fn always_answer(calls: &Calls, sheet: &[u8], words: u64, size: u64, salt: u64) -> String {
    let mut words = lent::words(salt, words as usize);
    let mut list = lent::bytes(salt + 1, size as usize);
    let reply = (calls.always)(sheet, words.part_mut(), list.part_mut());
    let mut text = format!("{} {} entries {}", reply.answer, reply.line, reply.doubts.len());
    let entries = reply.doubts.flat_map(|it| [it.nonterminal, it.first, it.second, it.why as u8]);
    let entries: Vec<u8> = entries.collect();
    text = put(text, format_args!(" list {} {}", hexed(list.part()), shown_runs(words.part())));
    if !list.part().starts_with(&entries) {
        text += " ENTRIES ARE NOT THE MEMORY'S";
    }
    text + remark(words.sides_kept() && list.sides_kept())
}

fn expand_answer(sheet: &[u8], size: u64, salt: u64) -> String {
    let mut lent = lent::bytes(salt, size as usize);
    let reply = clauses::expand(sheet, lent.part_mut());
    let text = format!("{} {} bytes {}", reply.answer, reply.line, reply.sheet.len());
    format!("{text} sheet {}{}", hexed(lent.part()), remark(lent.sides_kept()))
}

fn share_answer(rules: &[u8], numbers: [u64; 3], words: u64, salt: u64) -> String {
    let mut words = lent::words(salt, words as usize);
    let [length, racks, index] = numbers.map(|number| number as usize);
    let reply = share(rules, length, racks, index, words.part_mut());
    let text = reported(&reply);
    format!("{text} {}{}", shown_words(words.part()), remark(words.sides_kept()))
}

fn reported(reply: &ShareReply) -> String {
    let mut text = format!("{} {}", reply.found.answer, reply.found.line);
    let numbers = [reply.number, reply.quotient, reply.remainder];
    text = put(text, format_args!(" numbers {} {} {} found", numbers[0], numbers[1], numbers[2]));
    for Token { terminal, line, column } in reply.sentence() {
        text = put(text, format_args!(" {terminal}/{}/{}", line.0, column.0));
    }
    if reply.sentence().is_empty() {
        text += " -";
    }
    text
}

fn merge_answer(rules: &[u8], one: [u64; 3], two: [u64; 3]) -> String {
    let mut words = vec![0; words_for(MOST_BOUND)];
    let mut report = |numbers: [u64; 3]| {
        let [length, racks, index] = numbers.map(|number| number as usize);
        share(rules, length, racks, index, &mut words)
    };
    reported(&merge(report(one), report(two)))
}

fn columns_answer(rules: &[u8], ranges: &[u8], words: u64, salt: u64) -> String {
    let mut words = lent::words(salt, words as usize);
    let reply = columns(rules, ranges, words.part_mut());
    let [none, one, two] = [reply.none, reply.one, reply.two].map(u8::from);
    let line = hexed(columns_refused_line(rules, ranges));
    let text = format!("{} {} flags {none} {one} {two} line {line}", reply.answer, reply.line);
    format!("{text} {}{}", shown_words(words.part()), remark(words.sides_kept()))
}

fn show_answer(sheets: [&[u8]; 3], user: u64, words: u64, rows: [u64; 2], salt: u64) -> String {
    let mut words = lent::words(salt, words as usize);
    let mut first = lent::bytes(salt + 1, rows[0] as usize);
    let mut second = lent::bytes(salt + 2, rows[1] as usize);
    let lent = (words.part_mut(), first.part_mut(), second.part_mut());
    let (text, rows) = reply_text(show(sheets, user as usize, lent.0, lent.1, lent.2));
    with_memories(text, rows, [&first, &second], &words)
}

fn change_answer(sheets: [&[u8]; 3], numbers: [u64; 2], size: u64, salt: u64) -> String {
    let mut lent = lent::bytes(salt, size as usize);
    let ([rules, rights, lay], [user, rule]) = (sheets, numbers.map(|number| number as usize));
    let reply = change(rules, rights, user, rule, lay, lent.part_mut());
    let text = format!("{} {} bytes {}", reply.answer, reply.line, reply.sheet.len());
    format!("{text} sheet {}{}", hexed(lent.part()), remark(lent.sides_kept()))
}
