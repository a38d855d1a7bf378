//! Safe calls of the proved library: rule sheets, token sheets and their trees.
//!
//! Each call takes sheets as bytes and memory that the caller lends. None asks
//! anything of its caller and none panics: any bytes, any lent memory and any
//! bound are answered.
//!
//! | call | what it answers |
//! |---|---|
//! | [`verdict`] | none, one or two valid trees of a sentence |
//! | [`trees`] | besides, the rows of the first and the second tree |
//! | [`rows`] | the verdict, and how many rows each tree has |
//! | [`places`] | the verdict, and all places at which the readings part |
//! | [`show`] | the verdict, and the rows of both trees as a user may see them |
//! | [`change`] | a rule sheet with a mark that a user may change |
//! | [`columns()`] | which verdicts some choice of columns within two ends gives |
//! | [`always`] | clear, where no sentence of any length has two trees, or where the test cannot tell |
//! | [`sweep`] | the first short sentence that has two trees, or clear |
//! | [`share`] | one share of a sweep that is divided among racks |
//! | [`merge`] | two reports of shares as one; all of them come to the sweep's answer |
//! | [`refused_line`], [`columns_refused_line`] | the refused line itself, as a part of its sheet |
//! | [`clauses`] | a module: verdict, trees, sweep, the test at every length and refused line of clause sheets, and the rule sheet that one expands to |
//!
//! Each reply has a `result`: the answer, or a [`Refused`] as an error.
//!
//! A refused call but refused-22 changes no lent memory. [`words_for`] says how
//! many words a call needs; words past them never change.
//!
//! Three tokens on one line can be grouped in two ways:
//!
//! ```
//! use teplonga::{verdict, words_for, Answer};
//!
//! let rules = b"left kind first second lay\n0 B 0 0 none\n0 A 0 - none\n";
//! let tokens = b"term line col\n0 1 1\n0 1 2\n0 1 3\n";
//! let mut words = vec![0; words_for(3)];
//! let reply = verdict(rules, tokens, &mut words);
//! assert_eq!(reply.answer, Answer::Two);
//! assert_eq!(reply.line, 0);
//! ```

#![deny(unsafe_code)]
#![warn(missing_docs)]

mod always;
mod answer;
#[allow(unsafe_code)]
mod c;
pub mod clauses;
mod columns;
mod place;
mod refusal;
mod row_count;
mod sentence;
mod share;
mod sheet;
mod tree;

pub use always::{AlwaysReply, Doubt, Doubts, Why, ALWAYS_WORDS, DOUBT, MOST_DOUBTS};
pub use answer::{Answer, Reply};
pub use columns::ColumnsReply;
pub use place::{Place, Places, PlacesReply, PLACE};
pub use refusal::{Refusal, Refused};
pub use row_count::{RowCount, RowsReply};
pub use sentence::{Column, Line, SweepReply, Token};
pub use share::{ShareReply, MOST_RACKS};
pub use sheet::SheetReply;
pub use tree::{Kind, Row, Rows, TreesReply};

/// The most rules of a rule sheet.
pub const MOST_RULES: usize = 128;

/// The most tokens of a token sheet.
pub const MOST_TOKENS: usize = 64;

/// The greatest bound of a sweep.
pub const MOST_BOUND: usize = 7;

/// The words that a span sheet of so many tokens needs, and a sweep with this
/// bound.
///
/// That is a pair for the empty word and one for each span, n(n+1) + 2 words:
///
/// ```
/// assert_eq!(teplonga::words_for(3), 14);
/// assert_eq!(teplonga::words_for(teplonga::MOST_TOKENS), 4162);
/// ```
#[must_use]
pub const fn words_for(tokens: usize) -> usize {
    tokens.saturating_add(1).saturating_mul(tokens).saturating_add(2)
}

/// How many valid trees the sentence has: none, one, or two for two or more.
///
/// An accepted call fills the span sheet. Pair 0 is the empty word, then come
/// the spans of length 1 from start 0 upward, then those of length 2, and so
/// on. Bit A of a pair's first word says that nonterminal A has a valid tree
/// there, of its second word that it has at least two.
///
/// ```
/// use teplonga::{verdict, Refusal};
///
/// let rules = b"left kind first second lay\n0 B 0 0 none\n0 A 64 - none\n";
/// let reply = verdict(rules, b"", &mut []);
/// assert_eq!(reply.to_string(), "refused-3 3");
/// let refused = reply.result().unwrap_err();
/// assert_eq!((refused.refusal, refused.line), (Refusal::RuleRange, 3));
/// assert_eq!(refused.to_string(), "refused-3 in line 3: a number above 63");
/// ```
pub fn verdict(rules: &[u8], tokens: &[u8], words: &mut [u64]) -> Reply {
    Reply::unpacked(c::verdict(rules, tokens, words))
}

/// The verdict, and the rows of the first and the second tree.
///
/// A row takes four bytes. Bytes of `first` and `second` after the rows are 0
/// after an accepted call. Where a tree has more rows than its memory has whole
/// places, the call is refused-22: the span sheet is filled, both tree memories
/// are 0.
///
/// ```
/// use teplonga::{trees, words_for, Answer, Kind, Row};
///
/// let rules = b"left kind first second lay\n0 B 0 0 none\n0 A 0 - none\n";
/// let tokens = b"term line col\n0 1 1\n0 1 2\n0 1 3\n";
/// let mut words = vec![0; words_for(3)];
/// let (mut first, mut second) = ([0; 4 * 16], [0; 4 * 16]);
/// let reply = trees(rules, tokens, &mut words, &mut first, &mut second);
/// assert_eq!(reply.answer, Answer::Two);
/// assert_eq!((reply.first.len(), reply.second.len()), (5, 5));
/// let left = |mut rows: teplonga::Rows| rows.nth(1);
/// let leaf = Row { nonterminal: 0, kind: Kind::Atom, start: 0, length: 1 };
/// let pair = Row { nonterminal: 0, kind: Kind::Binary, start: 0, length: 2 };
/// assert_eq!(left(reply.first), Some(leaf));
/// assert_eq!(left(reply.second), Some(pair));
/// ```
pub fn trees<'a>(
    rules: &[u8],
    tokens: &[u8],
    words: &mut [u64],
    first: &'a mut [u8],
    second: &'a mut [u8],
) -> TreesReply<'a> {
    let (word, counts) = c::trees(rules, tokens, words, first, second);
    TreesReply::unpacked(word, counts, first, second)
}

/// The verdict, and how many rows each tree has: the memory that [`trees`] of
/// the same sheets needs. No tree is built.
///
/// ```
/// use teplonga::{rows, words_for, RowCount};
///
/// let rules = b"left kind first second lay\n0 B 0 0 none\n0 A 0 - none\n";
/// let tokens = b"term line col\n0 1 1\n0 1 2\n0 1 3\n";
/// let reply = rows(rules, tokens, &mut vec![0; words_for(3)]);
/// assert_eq!((reply.first, reply.second), (RowCount::Exact(5), RowCount::Exact(5)));
/// ```
pub fn rows(rules: &[u8], tokens: &[u8], words: &mut [u64]) -> RowsReply {
    let (word, counts) = c::rows(rules, tokens, words);
    RowsReply::unpacked(word, counts)
}

/// Of each verdict: does some choice of columns within the ends of a range
/// sheet give it, with positions properly rising? The words it needed end 0.
///
/// ```
/// use teplonga::{columns, words_for};
///
/// let rules = b"left kind first second lay\n0 B 1 1 align\n1 A 0 - none\n";
/// let ranges = b"term line low high\n0 1 1 1\n0 2 1 2\n";
/// let reply = columns(rules, ranges, &mut vec![0; words_for(2)]);
/// assert_eq!((reply.none, reply.one, reply.two), (true, true, false));
/// ```
pub fn columns(rules: &[u8], ranges: &[u8], words: &mut [u64]) -> ColumnsReply {
    let (word, found) = c::columns(rules, ranges, words);
    ColumnsReply::unpacked(word, found)
}

/// The refused line of a rule sheet and a range sheet, as
/// [`refused_line`] has it.
///
/// ```
/// let rules = b"left kind first second lay\n0 A 0 - none\n";
/// let ranges = b"term line low high\n0 1 2 1\n";
/// assert_eq!(teplonga::columns_refused_line(rules, ranges), b"0 1 2 1");
/// ```
#[must_use]
pub fn columns_refused_line<'a>(rules: &'a [u8], ranges: &'a [u8]) -> &'a [u8] {
    c::columns_refused_line(rules, ranges)
}

/// The verdict, and the list of every nonterminal and word at which a whole
/// tree has two choices or more.
///
/// A place takes [`PLACE`] bytes of `list`; the bytes after the places are 0
/// after an accepted call. A list that does not fit is refused-22: the span
/// sheet is filled, all of `list` is 0.
///
/// ```
/// use teplonga::{places, words_for, Place};
///
/// let rules = b"left kind first second lay\n0 B 0 0 none\n0 A 0 - none\n";
/// let tokens = b"term line col\n0 1 1\n0 1 2\n0 1 3\n";
/// let mut list = [0; 3 * 16];
/// let reply = places(rules, tokens, &mut vec![0; words_for(3)], &mut list);
/// let whole = Place { nonterminal: 0, start: 0, length: 3 };
/// assert_eq!(reply.places.collect::<Vec<Place>>(), [whole]);
/// ```
pub fn places<'a>(
    rules: &[u8],
    tokens: &[u8],
    words: &mut [u64],
    list: &'a mut [u8],
) -> PlacesReply<'a> {
    let (word, count) = c::places(rules, tokens, words, list);
    PlacesReply::unpacked(word, count, list)
}

/// The verdict, and the rows of both trees as a user may see them.
///
/// The rights sheet says which nonterminals the user may see. A node outside
/// them is one row of [`Kind::Closed`], with nothing beneath it; refused-22 goes
/// by the rows shown. All else is as with [`trees`].
///
/// ```
/// use teplonga::{show, words_for, Kind};
///
/// let rules = b"left kind first second lay\n0 B 0 0 none\n0 A 0 - none\n";
/// let tokens = b"term line col\n0 1 1\n0 1 2\n0 1 3\n";
/// let rights = b"user low high may\n5 1 63 see\n";
/// let mut words = vec![0; words_for(3)];
/// let (mut first, mut second) = ([0; 4], [0; 4]);
/// let sheets = [rules.as_slice(), tokens, rights];
/// let reply = show(sheets, 5, &mut words, &mut first, &mut second);
/// assert_eq!(reply.answer.to_string(), "two");
/// assert!(reply.first.chain(reply.second).all(|row| row.kind == Kind::Closed));
/// ```
pub fn show<'a>(
    sheets: [&[u8]; 3],
    user: usize,
    words: &mut [u64],
    first: &'a mut [u8],
    second: &'a mut [u8],
) -> TreesReply<'a> {
    let (word, counts) = c::show(sheets, user, words, first, second);
    TreesReply::unpacked(word, counts, first, second)
}

/// The rule sheet with the bytes `lay` as the mark of the rule at a place,
/// counted from 1, if the user may change that rule.
///
/// The sheet stands at the front of `bytes`, with 0 after it. One that does not
/// fit is refused-22, and all of `bytes` is 0.
///
/// ```
/// use teplonga::change;
///
/// let rules = b"left kind first second lay\n0 B 0 0 none\n0 A 0 - none\n";
/// let rights = b"user low high may\n5 0 0 change\n";
/// let mut bytes = [0; 100];
/// let reply = change(rules, rights, 5, 1, b"align", &mut bytes);
/// assert_eq!(reply.sheet, b"left kind first second lay\n0 B 0 0 align\n0 A 0 - none\n");
/// ```
pub fn change<'a>(
    rules: &[u8],
    rights: &[u8],
    user: usize,
    rule: usize,
    lay: &[u8],
    bytes: &'a mut [u8],
) -> SheetReply<'a> {
    let (word, count) = c::change(rules, rights, [user, rule], lay, bytes);
    SheetReply::unpacked(word, count, bytes)
}

/// The first candidate of 1 to `bound` tokens that has two trees, or clear.
///
/// Clear says that no sequence of 1 to `bound` tokens has two trees, whatever
/// its terminals, lines and columns. A sweep needs `words_for(bound)` words; an
/// accepted one leaves them 0.
///
/// ```
/// use teplonga::{sweep, words_for, Answer, Column, Line, Token};
///
/// let rules = b"left kind first second lay\n0 B 0 0 none\n0 A 0 - none\n";
/// let mut words = vec![0; words_for(3)];
/// assert_eq!(sweep(rules, 2, &mut words).answer, Answer::Clear);
/// let reply = sweep(rules, 3, &mut words);
/// let at = |column| Token { terminal: 0, line: Line(1), column: Column(column) };
/// assert_eq!(reply.answer, Answer::Two);
/// assert_eq!(reply.sentence(), [at(1), at(2), at(3)]);
/// assert_eq!(reply.tried, 11);
/// ```
pub fn sweep(rules: &[u8], bound: usize, words: &mut [u64]) -> SweepReply {
    let mut found = [0; sentence::PLACES];
    let word = c::sweep(rules, bound, words, &mut found);
    SweepReply::unpacked(word, &found)
}

/// Clear, where no sentence has two trees, whatever its length; unknown, where
/// the test cannot tell, with the list of all rules that give rise to doubt.
///
/// Clear says that no sequence of tokens, none at all included, has two trees,
/// whatever its terminals, lines, columns and widths. Unknown says nothing of
/// that: such a sheet may have no sentence with two trees. The test needs
/// [`ALWAYS_WORDS`] words and leaves them 0. An entry takes [`DOUBT`] bytes of
/// `list`, and no list has more than [`MOST_DOUBTS`]; the bytes after the entries
/// are 0 after an accepted call. A list that does not fit is refused-22: all of
/// `list` is 0.
///
/// ```
/// use teplonga::{always, Answer, Doubt, Why, ALWAYS_WORDS};
///
/// let (mut words, mut list) = (vec![0; ALWAYS_WORDS], [0; 4 * 16]);
/// let chain = b"left kind first second lay\n0 B 1 0 none\n0 U 1 - none\n1 A 0 - none\n";
/// assert_eq!(always(chain, &mut words, &mut list).answer, Answer::Clear);
/// let pairs = b"left kind first second lay\n0 B 0 0 none\n0 A 0 - none\n";
/// let reply = always(pairs, &mut words, &mut list);
/// let doubt = Doubt { nonterminal: 0, first: 1, second: 1, why: Why::Cuts };
/// assert_eq!(reply.answer, Answer::Unknown);
/// assert_eq!(reply.doubts.collect::<Vec<Doubt>>(), [doubt]);
/// ```
pub fn always<'a>(rules: &[u8], words: &mut [u64], list: &'a mut [u8]) -> AlwaysReply<'a> {
    let (word, count) = c::always(rules, words, list);
    AlwaysReply::unpacked(word, count, list)
}

/// The lowest number of share `index` of `racks` whose arrangement of `length`
/// tokens has two trees, or clear.
///
/// The arrangements of a length are numbered from 0 in the sweep's order. The
/// shares are runs of these numbers, share 0 first; the first shares, as many as
/// the remainder, have one number more. Over the lengths 1 to k the lowest number
/// of the shortest length that reports one has the sweep's sentence, and where
/// none does the sweep is clear. A share needs `words_for(length)` words; an
/// accepted one leaves them 0.
///
/// ```
/// use teplonga::{share, sweep, words_for};
///
/// let rules = b"left kind first second lay\n0 B 0 0 none\n0 A 0 - none\n";
/// let mut words = vec![0; words_for(3)];
/// let reports = (0..12).map(|index| share(rules, 3, 12, index, &mut words));
/// let mut found: Vec<_> = reports.filter(|reply| !reply.sentence().is_empty()).collect();
/// found.sort_by_key(|reply| reply.number);
/// assert_eq!((found[0].quotient, found[0].remainder), (20, 3));
/// assert_eq!(found[0].sentence(), sweep(rules, 3, &mut words).sentence());
/// ```
pub fn share(
    rules: &[u8],
    length: usize,
    racks: usize,
    index: usize,
    words: &mut [u64],
) -> ShareReply {
    let mut found = [0; sentence::PLACES];
    let (word, numbers) = c::share(rules, [length, racks, index], words, &mut found);
    ShareReply::unpacked(word, numbers, &found)
}

/// Two reports of shares merged: the first that is a refusal, else the one with the
/// lower number of the shorter length, else the first.
///
/// Merged in any order, the reports of all shares of the lengths 1 to k, with any
/// number of racks for each length, come to the sweep's answer for the bound k.
///
/// ```
/// use teplonga::{merge, share, sweep, words_for};
///
/// let rules = b"left kind first second lay\n0 B 0 0 none\n0 A 0 - none\n";
/// let mut words = vec![0; words_for(3)];
/// let all = (1..=3).flat_map(|length| (0..12).map(move |index| (length, index)));
/// let reports = all.map(|(length, index)| share(rules, length, 12, index, &mut words));
/// let merged = reports.reduce(merge).expect("there are reports");
/// assert_eq!(merged.number, 11);
/// assert_eq!(merged.sentence(), sweep(rules, 3, &mut words).sentence());
/// ```
pub fn merge(one: ShareReply, two: ShareReply) -> ShareReply {
    match c::merge(one.words(), two.words()) {
        0 => one,
        _ => two,
    }
}

/// The line for which a call with these sheets is refused, without its byte 10,
/// as a part of the sheet that holds it. Where there is no such line, the first
/// zero bytes of the rule sheet.
///
/// ```
/// let rules = b"left kind first second lay\n0 E - - none\n0 X - - none\n";
/// assert_eq!(teplonga::refused_line(rules, b"term line col\n"), b"0 X - - none");
/// ```
#[must_use]
pub fn refused_line<'a>(rules: &'a [u8], tokens: &'a [u8]) -> &'a [u8] {
    c::refused_line(rules, tokens)
}
