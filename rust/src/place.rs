//! The places at which the readings of a sentence part.

use crate::{Answer, Refused, Reply};

/// The bytes of a place in a lent list.
pub const PLACE: usize = 3;

/// A nonterminal over a word, at which there are two choices or more.
#[derive(Clone, Copy, Debug, PartialEq, Eq, Hash)]
pub struct Place {
    /// The nonterminal.
    pub nonterminal: u8,
    /// The place of the word's first token, counted from 0; 0 of an empty word.
    pub start: u8,
    /// How many tokens the word has.
    pub length: u8,
}

/// The places of a sentence: longest word first, then by start, then by
/// nonterminal.
#[derive(Clone, Debug)]
pub struct Places<'a>(std::slice::ChunksExact<'a, u8>);

impl Iterator for Places<'_> {
    type Item = Place;

    fn next(&mut self) -> Option<Place> {
        let place = self.0.next()?;
        Some(Place { nonterminal: place[0], start: place[1], length: place[2] })
    }

    fn size_hint(&self) -> (usize, Option<usize>) {
        self.0.size_hint()
    }
}

impl ExactSizeIterator for Places<'_> {}

/// What [`places`](crate::places) answers. The list lies in the lent bytes.
#[derive(Clone, Debug)]
#[must_use]
pub struct PlacesReply<'a> {
    /// The answer.
    pub answer: Answer,
    /// The line, as in [`Reply`].
    pub line: u32,
    /// The places; none but for two.
    pub places: Places<'a>,
}

impl<'a> PlacesReply<'a> {
    /// The answer, or a refusal as an error.
    pub fn result(&self) -> Result<Answer, Refused> {
        self.answer.result(self.line)
    }

    pub(crate) fn unpacked(word: u64, count: usize, list: &'a [u8]) -> PlacesReply<'a> {
        let Reply { answer, line } = Reply::unpacked(word);
        let places = Places(list[..PLACE * count].chunks_exact(PLACE));
        PlacesReply { answer, line, places }
    }
}
