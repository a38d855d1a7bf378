//! The calls on clause sheets: choices, groups and repeats in place of rules.
//!
//! They promise of the rules that a clause sheet expands to what the calls of
//! the same names promise of a rule sheet.

use crate::{c, sentence, AlwaysReply, Reply, SheetReply, SweepReply, TreesReply};

/// The most bytes of an expanded rule sheet.
pub const MOST_EXPANDED: usize = 4096;

/// How many readings the sentence has: none, one, or two for two or more.
///
/// ```
/// use teplonga::{clauses::verdict, words_for, Answer};
///
/// let clauses = b"left clause\n0 t0 | n0 n0\n";
/// let tokens = b"term line col\n0 1 1\n0 1 2\n0 1 3\n";
/// assert_eq!(verdict(clauses, tokens, &mut vec![0; words_for(3)]).answer, Answer::Two);
/// ```
pub fn verdict(clauses: &[u8], tokens: &[u8], words: &mut [u64]) -> Reply {
    Reply::unpacked(c::clause_verdict(clauses, tokens, words))
}

/// The verdict, and the rows of the first and the second tree under the
/// expanded rules.
///
/// ```
/// use teplonga::{clauses::trees, words_for, Answer};
///
/// let clauses = b"left clause\n0 t0 | n0 n0\n";
/// let tokens = b"term line col\n0 1 1\n0 1 2\n0 1 3\n";
/// let (mut first, mut second) = ([0; 4 * 32], [0; 4 * 32]);
/// let reply = trees(clauses, tokens, &mut vec![0; words_for(3)], &mut first, &mut second);
/// assert_eq!(reply.answer, Answer::Two);
/// assert_eq!((reply.first.len(), reply.second.len()), (13, 13));
/// ```
pub fn trees<'a>(
    clauses: &[u8],
    tokens: &[u8],
    words: &mut [u64],
    first: &'a mut [u8],
    second: &'a mut [u8],
) -> TreesReply<'a> {
    let (word, counts) = c::clause_trees(clauses, tokens, words, first, second);
    TreesReply::unpacked(word, counts, first, second)
}

/// The first candidate of 1 to `bound` tokens that has two readings, or clear.
///
/// ```
/// use teplonga::{clauses::sweep, words_for};
///
/// let clauses = b"left clause\n0 n1+:align\n1 t0 | t1 n0\n";
/// let reply = sweep(clauses, 5, &mut vec![0; words_for(5)]);
/// let words: Vec<u8> = reply.sentence().iter().map(|token| token.terminal).collect();
/// assert_eq!(words, [1, 0, 0]);
/// ```
pub fn sweep(clauses: &[u8], bound: usize, words: &mut [u64]) -> SweepReply {
    let mut found = [0; sentence::PLACES];
    let word = c::clause_sweep(clauses, bound, words, &mut found);
    SweepReply::unpacked(word, &found)
}

/// Clear, where no sentence has two readings, whatever its length; unknown,
/// where the test cannot tell. The rules of the list are those of the expansion.
///
/// ```
/// use teplonga::{clauses::always, Answer, ALWAYS_WORDS};
///
/// let (mut words, mut list) = (vec![0; ALWAYS_WORDS], [0; 4 * 16]);
/// let reply = always(b"left clause\n0 t0+ t1\n", &mut words, &mut list);
/// assert_eq!(reply.answer, Answer::Clear);
/// ```
pub fn always<'a>(clauses: &[u8], words: &mut [u64], list: &'a mut [u8]) -> AlwaysReply<'a> {
    let (word, count) = c::clause_always(clauses, words, list);
    AlwaysReply::unpacked(word, count, list)
}

/// The rule sheet that a clause sheet expands to; [`MOST_EXPANDED`] bytes are
/// enough for any.
///
/// Bytes after it are 0 after an accepted call. A sheet that does not fit is
/// refused-22, and all lent bytes are 0.
///
/// ```
/// use teplonga::clauses::{expand, MOST_EXPANDED};
///
/// let mut lent = [0; MOST_EXPANDED];
/// let rules = b"left kind first second lay\n0 U 1 - none\n1 U 2 - none\n2 A 5 - none\n";
/// assert_eq!(expand(b"left clause\n0 t5\n", &mut lent).sheet, rules);
/// ```
pub fn expand<'a>(clauses: &[u8], sheet: &'a mut [u8]) -> SheetReply<'a> {
    let (word, count) = c::expand(clauses, sheet);
    SheetReply::unpacked(word, count, sheet)
}

/// The line for which a call with these sheets is refused, as
/// [`refused_line`](crate::refused_line) has it.
///
/// ```
/// let clauses = b"left clause\n0 t5\n0 ()\n";
/// assert_eq!(teplonga::clauses::refused_line(clauses, b"term line col\n"), b"0 ()");
/// ```
#[must_use]
pub fn refused_line<'a>(clauses: &'a [u8], tokens: &'a [u8]) -> &'a [u8] {
    c::clause_refused_line(clauses, tokens)
}
