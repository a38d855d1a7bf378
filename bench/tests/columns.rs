//! The search for columns against each choice by itself.

use bench::random::{rule_line, rule_sheet, Random};
use bench::twin::columns::{columns, Ranged};
use bench::twin::grammar::{Column, Line, Rule, Token, Width};
use bench::twin::{chart, sheets, spans};

/// Which of none, one and two some rising choice gives, each by itself.
fn one_by_one(rules: &[Rule], ranges: &[Ranged]) -> [bool; 3] {
    let choices: u64 = ranges.iter().map(|range| u64::from(range.1)).product();
    let mut found = [false; 3];
    for number in 0..choices {
        let tokens = choice(ranges, number);
        if tokens.windows(2).all(|pair| pair[1].follows(&pair[0])) {
            let mut words = vec![0; spans::size(tokens.len())];
            chart::fill(&mut words, rules, &tokens);
            found[spans::verdict(&words, tokens.len()) as usize] = true;
        }
    }
    found
}

/// The choice with that number, the first token's column fastest.
fn choice(ranges: &[Ranged], mut number: u64) -> Vec<Token> {
    let token = |&(token, columns): &Ranged| {
        let step = number % u64::from(columns);
        number /= u64::from(columns);
        Token { column: Column(token.column.0 + step as u16), ..token }
    };
    ranges.iter().map(token).collect()
}

/// Tokens on lines that go on, each in one to three columns.
fn random_ranges(random: &mut Random, n: u64, terminals: u64) -> Vec<Ranged> {
    let (mut line, mut column) = (1, 0);
    let mut next = |_| {
        let step = random.below(3);
        line += step;
        column = if step == 0 { column + 1 + random.below(2) } else { 1 + random.below(3) };
        let terminal = random.below(terminals) as u8;
        let (line, column) = (Line(line as u16), Column(column as u16));
        (Token { terminal, line, column, width: Width(1) }, 1 + random.below(3) as u16)
    };
    (0..n).map(&mut next).collect()
}

/// The library answers the same.
#[cfg(feature = "library")]
fn compare(rules: &[u8], ranges: &[Ranged], found: [bool; 3]) {
    let mut sheet = "term line low high\n".to_string();
    for (token, columns) in ranges {
        let (line, low) = (token.line.0, token.column.0);
        sheet += &format!("{} {line} {low} {}\n", token.terminal, low + columns - 1);
    }
    let mut words = vec![7; spans::size(ranges.len()) + 1];
    let (_, said) = bench::library::columns(rules, sheet.as_bytes(), &mut words);
    assert_eq!(said.map(|flag| flag == 1), found);
    let last = words.pop();
    assert_eq!((words.iter().all(|&word| word == 0), last), (true, Some(7)));
}

#[cfg(not(feature = "library"))]
fn compare(_: &[u8], _: &[Ranged], _: [bool; 3]) {}

#[test]
fn the_search_finds_what_each_choice_gives() {
    let mut random = Random::new(17);
    let mut met = [0; 8];
    while met.iter().sum::<usize>() < 600 {
        let terminals = 1 + random.below(2);
        let lines: Vec<String> = (0..12).map(|_| rule_line(&mut random, 4, terminals)).collect();
        let sheet = rule_sheet(&lines);
        let Ok(rules) = sheets::read_rules(&sheet) else {
            continue;
        };
        let n = random.below(8);
        let ranges = random_ranges(&mut random, n, terminals);
        let found = columns(&rules, &ranges, &mut vec![7; spans::size(ranges.len())]);
        assert_eq!(found, one_by_one(&rules, &ranges), "{lines:?}\n{ranges:?}");
        compare(&sheet, &ranges, found);
        met[found.iter().fold(0, |set, &flag| 2 * set + usize::from(flag))] += 1;
    }
    // Often there are several verdicts.
    assert!(met[3] + met[5] + met[6] + met[7] > 30, "{met:?}");
}
