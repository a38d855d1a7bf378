//! Grammars in layout-sensitive binary normal form, and tokens with positions.

/// Lines and columns are separate units: one is never compared with the other.
#[derive(Clone, Copy, Debug, PartialEq, Eq, PartialOrd, Ord)]
pub struct Line(pub u16);

#[derive(Clone, Copy, Debug, PartialEq, Eq, PartialOrd, Ord)]
pub struct Column(pub u16);

/// A width is added to a column and compared with nothing.
#[derive(Clone, Copy, Debug, PartialEq, Eq)]
pub struct Width(pub u16);

#[derive(Clone, Copy, Debug, PartialEq, Eq)]
pub struct Token {
    pub terminal: u8,
    pub line: Line,
    pub column: Column,
    pub width: Width,
}

#[derive(Clone, Copy, Debug, PartialEq, Eq)]
pub enum UnaryMark {
    None,
    Offside,
    Offalign,
    Single,
}

#[derive(Clone, Copy, Debug, PartialEq, Eq)]
pub enum BinaryMark {
    None,
    Align,
    Indent,
}

#[derive(Clone, Copy, Debug, PartialEq, Eq)]
pub enum Clause {
    Empty,
    /// Every terminal from the first to the second.
    Atom(u8, u8),
    Unary(u8, UnaryMark),
    Binary(u8, u8, BinaryMark),
}

#[derive(Clone, Copy, Debug, PartialEq, Eq)]
pub struct Rule {
    pub left: u8,
    pub clause: Clause,
}

impl Token {
    /// Does this token come after that one? On its line, past its width?
    pub fn follows(&self, before: &Token) -> bool {
        let end = u32::from(before.column.0) + u32::from(before.width.0);
        self.line > before.line || self.line == before.line && u32::from(self.column.0) >= end
    }
}

impl Clause {
    /// The same kind, first and second, under any mark? Atoms: a terminal of both?
    pub fn alike(&self, other: &Clause) -> bool {
        match (self, other) {
            (Clause::Empty, Clause::Empty) => true,
            (Clause::Atom(a, b), Clause::Atom(c, d)) => a <= d && c <= b,
            (Clause::Unary(a, _), Clause::Unary(b, _)) => a == b,
            (Clause::Binary(a, b, _), Clause::Binary(c, d, _)) => (a, b) == (c, d),
            _ => false,
        }
    }
}

/// Is the number in the set of a word's bits?
pub fn has(set: u64, member: u8) -> bool {
    set >> member & 1 == 1
}
