//! Rule sheets and token sheets: bytes to rules and tokens, or a refusal.

use super::grammar::{BinaryMark, Clause, Column, Line, Rule, Token, UnaryMark, Width};

/// A refusal's number and the line in its sheet, counted from 1, or 0.
#[derive(Clone, Copy, Debug, PartialEq, Eq)]
pub struct Refusal {
    pub number: u64,
    pub line: u64,
}

impl Refusal {
    pub fn at(number: u64, line: usize) -> Refusal {
        let line = line as u64;
        Refusal { number, line }
    }

    /// One that no line has.
    pub fn whole(number: u64) -> Refusal {
        Refusal { number, line: 0 }
    }
}

const MOST_RULES: usize = 128;
const MOST_TOKENS: usize = 64;

/// The lines, each with its byte 10 where it has one.
fn lines(sheet: &[u8]) -> impl Iterator<Item = &[u8]> {
    sheet.split_inclusive(|&byte| byte == b'\n')
}

/// A line's fields, if there are N of them and the line is ended.
fn fields<const N: usize>(line: &[u8]) -> Option<[&[u8]; N]> {
    let mut parts = line.strip_suffix(b"\n")?.split(|&byte| byte == b' ');
    let mut fields: [&[u8]; N] = [&[]; N];
    for field in &mut fields {
        *field = parts.next()?;
    }
    parts.next().is_none().then_some(fields)
}

/// A number of one to five digits, leading zeros or not.
fn number(field: &[u8]) -> Option<u32> {
    let length_fits = (1..=5).contains(&field.len());
    if !length_fits || !field.iter().all(u8::is_ascii_digit) {
        return None;
    }
    Some(field.iter().fold(0, |value, digit| 10 * value + u32::from(digit - b'0')))
}

/// A symbol as written; 255 stands for all that is above it, and is refused like it.
fn symbol(field: &[u8]) -> Option<u8> {
    number(field).map(|value| value.min(255) as u8)
}

fn dash(field: &[u8]) -> Option<()> {
    (field == b"-").then_some(())
}

/// The words of `lay`, before anything is known of the kind.
#[derive(Clone, Copy, PartialEq)]
enum Lay {
    None,
    Align,
    Indent,
    Offside,
    Offalign,
    Single,
}

fn lay(field: &[u8]) -> Option<Lay> {
    match field {
        b"none" => Some(Lay::None),
        b"align" => Some(Lay::Align),
        b"indent" => Some(Lay::Indent),
        b"offside" => Some(Lay::Offside),
        b"offalign" => Some(Lay::Offalign),
        b"single" => Some(Lay::Single),
        _ => None,
    }
}

impl Lay {
    fn unary(self) -> Option<UnaryMark> {
        match self {
            Lay::None => Some(UnaryMark::None),
            Lay::Offside => Some(UnaryMark::Offside),
            Lay::Offalign => Some(UnaryMark::Offalign),
            Lay::Single => Some(UnaryMark::Single),
            Lay::Align | Lay::Indent => None,
        }
    }

    fn binary(self) -> Option<BinaryMark> {
        match self {
            Lay::None => Some(BinaryMark::None),
            Lay::Align => Some(BinaryMark::Align),
            Lay::Indent => Some(BinaryMark::Indent),
            Lay::Offside | Lay::Offalign | Lay::Single => None,
        }
    }
}

/// A rule line whose fields are well written.
struct Written {
    left: u8,
    kind: Kind,
    lay: Lay,
}

enum Kind {
    Empty,
    Atom(u8, u8),
    Unary(u8),
    Binary(u8, u8),
}

/// The line as written, or nothing where refusal 2 is due.
fn written(line: &[u8]) -> Option<Written> {
    let [left, kind, first, second, mark] = fields(line)?;
    let kind = match kind {
        b"E" => {
            dash(first)?;
            dash(second)?;
            Kind::Empty
        }
        b"A" => {
            let low = symbol(first)?;
            Kind::Atom(low, if dash(second).is_some() { low } else { symbol(second)? })
        }
        b"U" => {
            dash(second)?;
            Kind::Unary(symbol(first)?)
        }
        b"B" => Kind::Binary(symbol(first)?, symbol(second)?),
        _ => return None,
    };
    Some(Written { left: symbol(left)?, kind, lay: lay(mark)? })
}

impl Written {
    /// Is every number at most 63?
    fn small(&self) -> bool {
        let rest = match self.kind {
            Kind::Empty => 0,
            Kind::Unary(a) => a,
            Kind::Atom(a, b) | Kind::Binary(a, b) => a.max(b),
        };
        self.left.max(rest) <= 63
    }

    /// The clause, or nothing where the lay is not one of its kind.
    fn clause(&self) -> Option<Clause> {
        match self.kind {
            Kind::Empty => (self.lay == Lay::None).then_some(Clause::Empty),
            Kind::Atom(a, b) => (self.lay == Lay::None).then_some(Clause::Atom(a, b)),
            Kind::Unary(a) => Some(Clause::Unary(a, self.lay.unary()?)),
            Kind::Binary(a, b) => Some(Clause::Binary(a, b, self.lay.binary()?)),
        }
    }
}

/// The rule of a line after the earlier ones, or the refusal's number.
fn rule(line: &[u8], earlier: &[Rule]) -> Result<Rule, u64> {
    if earlier.len() == MOST_RULES {
        return Err(6);
    }
    let written = written(line).ok_or(2u64)?;
    if !written.small() {
        return Err(3);
    }
    let left = written.left;
    let clause = written.clause().ok_or(4u64)?;
    if matches!(clause, Clause::Atom(low, high) if high < low) {
        return Err(44);
    }
    if earlier.iter().any(|rule| rule.left == left && rule.clause.alike(&clause)) {
        return Err(5);
    }
    Ok(Rule { left, clause })
}

/// The rules of a sheet.
pub fn read_rules(sheet: &[u8]) -> Result<Vec<Rule>, Refusal> {
    let mut lines = lines(sheet);
    if lines.next() != Some(b"left kind first second lay\n") {
        return Err(Refusal::at(1, 1));
    }
    let mut rules = Vec::with_capacity(MOST_RULES);
    for (place, line) in lines.enumerate() {
        let rule = rule(line, &rules).map_err(|number| Refusal::at(number, place + 2))?;
        rules.push(rule);
    }
    if rules.iter().all(|rule| rule.left != 0) {
        return Err(Refusal::whole(7));
    }
    Ok(rules)
}

/// The token of a line after the earlier ones, or the refusal's number.
fn token(line: &[u8], earlier: &[Token], wide: bool) -> Result<Token, u64> {
    if earlier.len() == MOST_TOKENS {
        return Err(14);
    }
    let [terminal, line, column, width] = numbers(line, wide).ok_or(12u64)?;
    let position = 1..=65_535;
    if terminal > 63 || !position.contains(&line) || !position.contains(&column) {
        return Err(13);
    }
    if !(1..=255).contains(&width) || column + width > 65_536 {
        return Err(47);
    }
    let (line, column, width) = (Line(line as u16), Column(column as u16), Width(width as u16));
    let token = Token { terminal: terminal as u8, line, column, width };
    if earlier.last().is_some_and(|before| !token.follows(before)) {
        return Err(15);
    }
    Ok(token)
}

/// A token line's numbers, the width 1 where the names have none; nothing where
/// refusal 12 is due.
fn numbers(line: &[u8], wide: bool) -> Option<[u32; 4]> {
    let [terminal, line, column, width] = if wide {
        fields(line)?
    } else {
        let [terminal, line, column] = fields(line)?;
        [terminal, line, column, b"1"]
    };
    Some([number(terminal)?, number(line)?, number(column)?, number(width)?])
}

/// The tokens of a sheet.
pub fn read_tokens(sheet: &[u8]) -> Result<Vec<Token>, Refusal> {
    let mut lines = lines(sheet);
    let wide = match lines.next() {
        Some(b"term line col\n") => false,
        Some(b"term line col width\n") => true,
        _ => return Err(Refusal::at(11, 1)),
    };
    let mut tokens = Vec::with_capacity(MOST_TOKENS);
    for (place, line) in lines.enumerate() {
        let token = token(line, &tokens, wide).map_err(|number| Refusal::at(number, place + 2))?;
        tokens.push(token);
    }
    Ok(tokens)
}
