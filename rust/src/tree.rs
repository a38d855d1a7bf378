//! Trees as rows of four bytes.

use crate::{Answer, Refused, Reply};

/// The kind of a node.
#[derive(Clone, Copy, Debug, PartialEq, Eq, Hash)]
#[repr(u8)]
pub enum Kind {
    /// An empty node, `E`.
    Empty = 0,
    /// A leaf, `A`.
    Atom = 1,
    /// A unary node, `U`.
    Unary = 2,
    /// A binary node, `B`.
    Binary = 3,
    /// A node that is closed to the user, `C`; of [`show`](crate::show) alone.
    Closed = 4,
}

impl Kind {
    fn numbered(number: u8) -> Kind {
        match number {
            0 => Kind::Empty,
            1 => Kind::Atom,
            2 => Kind::Unary,
            3 => Kind::Binary,
            4 => Kind::Closed,
            _ => unreachable!("no kind has the number {number}"),
        }
    }

    /// The kind's letter, as in a rule sheet.
    #[must_use]
    pub fn letter(self) -> char {
        match self {
            Kind::Empty => 'E',
            Kind::Atom => 'A',
            Kind::Unary => 'U',
            Kind::Binary => 'B',
            Kind::Closed => 'C',
        }
    }
}

/// A node of a tree and the word below it.
#[derive(Clone, Copy, Debug, PartialEq, Eq, Hash)]
pub struct Row {
    /// The node's nonterminal.
    pub nonterminal: u8,
    /// The node's kind.
    pub kind: Kind,
    /// The place of the word's first token, counted from 0; 0 of an empty word.
    pub start: u8,
    /// How many tokens the word has.
    pub length: u8,
}

/// The rows of a tree: a node before its children, the left before the right.
#[derive(Clone, Debug)]
#[must_use]
pub struct Rows<'a>(std::slice::ChunksExact<'a, u8>);

impl<'a> Rows<'a> {
    /// The first so many rows of a tree memory.
    fn first(count: usize, memory: &'a [u8]) -> Rows<'a> {
        Rows(memory[..4 * count].chunks_exact(4))
    }
}

impl Iterator for Rows<'_> {
    type Item = Row;

    fn next(&mut self) -> Option<Row> {
        let row = self.0.next()?;
        let kind = Kind::numbered(row[1]);
        Some(Row { nonterminal: row[0], kind, start: row[2], length: row[3] })
    }

    fn size_hint(&self) -> (usize, Option<usize>) {
        self.0.size_hint()
    }
}

impl ExactSizeIterator for Rows<'_> {}

/// What [`trees`](crate::trees) and [`show`](crate::show) answer. The rows lie in the lent memory.
#[derive(Clone, Debug)]
#[must_use]
pub struct TreesReply<'a> {
    /// The answer.
    pub answer: Answer,
    /// The line, as in [`Reply`].
    pub line: u32,
    /// The rows of the first tree; none where it is not written.
    pub first: Rows<'a>,
    /// The rows of the second tree; none where it is not written.
    pub second: Rows<'a>,
}

impl<'a> TreesReply<'a> {
    /// The answer, or a refusal as an error.
    pub fn result(&self) -> Result<Answer, Refused> {
        self.answer.result(self.line)
    }

    pub(crate) fn unpacked(
        word: u64,
        counts: [usize; 2],
        first: &'a [u8],
        second: &'a [u8],
    ) -> TreesReply<'a> {
        let Reply { answer, line } = Reply::unpacked(word);
        let first = Rows::first(counts[0], first);
        let second = Rows::first(counts[1], second);
        TreesReply { answer, line, first, second }
    }
}
