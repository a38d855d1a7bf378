//! What a span's tokens say to the marks.

use super::grammar::{has, BinaryMark, Column, Token, UnaryMark};

/// A sentence whose first `known` tokens count. The others are open: they meet
/// any mark, and their pairs in the words say which terminals they may have.
#[derive(Clone, Copy)]
pub struct Half<'a> {
    pub tokens: &'a [Token],
    pub known: usize,
}

/// Carried along as the span grows by a token: the first one's column and the
/// least column on later lines, which decide offside and offalign; a flag for
/// single; sets of left lengths for the binary marks.
#[derive(Clone, Copy)]
pub struct Marks {
    first: Column,
    least: Option<Column>,
    single: bool,
    align: u64,
    indent: u64,
}

impl Marks {
    /// Of one token.
    pub fn of(first: Column) -> Marks {
        Marks { first, least: None, single: true, align: 0, indent: 0 }
    }

    /// Take in `token`, which comes right after `before` and has `left` tokens
    /// of the span before it. `aligned` says whether align holds there.
    pub fn see(
        &mut self,
        left: usize,
        first: &Token,
        before: &Token,
        token: &Token,
        aligned: bool,
    ) {
        if first.line < token.line {
            self.least = Some(self.least.map_or(token.column, |least| least.min(token.column)));
            self.single = false;
        }
        self.align |= u64::from(aligned) << left;
        let indented = first.column < token.column && before.line < token.line;
        self.indent |= u64::from(indented) << left;
    }

    /// The token behind the span's first `left` is taken in. An open one adds
    /// nothing but a left length.
    pub fn grow(&mut self, sentence: &Half, start: usize, left: usize) {
        let (tokens, at) = (sentence.tokens, start + left);
        if at < sentence.known {
            let (first, token) = (&tokens[start], &tokens[at]);
            self.see(left, first, &tokens[at - 1], token, first.column == token.column);
        } else {
            self.align |= 1 << left;
            self.indent |= 1 << left;
        }
    }

    /// The same from the span's first token on: what carrying spares.
    pub fn walked(sentence: &Half, start: usize, len: usize) -> Marks {
        let mut marks = Marks::of(sentence.tokens[start].column);
        for left in 1..len {
            marks.grow(sentence, start, left);
        }
        marks
    }

    pub fn unary(&self, mark: UnaryMark) -> bool {
        match mark {
            UnaryMark::None => true,
            UnaryMark::Offside => self.least.is_none_or(|least| self.first < least),
            UnaryMark::Offalign => self.least.is_none_or(|least| self.first <= least),
            UnaryMark::Single => self.single,
        }
    }

    /// Does the mark hold with `left` tokens of the span on its left, and some
    /// on its right?
    pub fn binary(&self, mark: BinaryMark, left: usize) -> bool {
        match mark {
            BinaryMark::None => true,
            BinaryMark::Align => has(self.align, left as u8),
            BinaryMark::Indent => has(self.indent, left as u8),
        }
    }

    /// The cuts at which each binary mark holds of a span from `start` on.
    pub fn cuts(&self, start: usize) -> [u64; 3] {
        [u64::MAX, self.align << start, self.indent << start]
    }

    /// Which unary marks hold: 3 all of them, 2 all but single, 1 offalign, 0
    /// none.
    pub fn level(&self) -> usize {
        if self.single {
            3
        } else if self.unary(UnaryMark::Offside) {
            2
        } else {
            usize::from(self.unary(UnaryMark::Offalign))
        }
    }
}
