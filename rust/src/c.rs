//! The proved library's C functions, declared once, and each as a function on
//! slices. All of the crate's `unsafe` is in the macro `call`.
//!
//! The library is proved on slices: pointers that are not null, each with its
//! length. It reads and writes within them alone, keeps none of them, and asks
//! nothing of what they hold. Nothing checks these declarations against it but
//! the tests.

/// A part of a sheet.
#[repr(C)]
pub struct Part {
    pub at: *const u8,
    pub length: usize,
}

extern "C" {
    fn teplonga_verdict(
        rules: *const u8,
        rules_length: usize,
        tokens: *const u8,
        tokens_length: usize,
        words: *mut u64,
        words_length: usize,
    ) -> u64;

    fn teplonga_trees(
        rules: *const u8,
        rules_length: usize,
        tokens: *const u8,
        tokens_length: usize,
        words: *mut u64,
        words_length: usize,
        first: *mut u8,
        first_length: usize,
        second: *mut u8,
        second_length: usize,
        counts: *mut u64,
        counts_length: usize,
    ) -> u64;

    fn teplonga_sweep(
        rules: *const u8,
        rules_length: usize,
        bound: usize,
        words: *mut u64,
        words_length: usize,
        found: *mut u64,
        found_length: usize,
    ) -> u64;

    fn teplonga_refused_line(
        rules: *const u8,
        rules_length: usize,
        tokens: *const u8,
        tokens_length: usize,
        line: *mut Part,
    );

    fn teplonga_rows(
        rules: *const u8,
        rules_length: usize,
        tokens: *const u8,
        tokens_length: usize,
        words: *mut u64,
        words_length: usize,
        counts: *mut u64,
        counts_length: usize,
    ) -> u64;

    fn teplonga_places(
        rules: *const u8,
        rules_length: usize,
        tokens: *const u8,
        tokens_length: usize,
        words: *mut u64,
        words_length: usize,
        list: *mut u8,
        list_length: usize,
        count: *mut u64,
        count_length: usize,
    ) -> u64;

    fn teplonga_clause_verdict(
        clauses: *const u8,
        clauses_length: usize,
        tokens: *const u8,
        tokens_length: usize,
        words: *mut u64,
        words_length: usize,
    ) -> u64;

    fn teplonga_clause_trees(
        clauses: *const u8,
        clauses_length: usize,
        tokens: *const u8,
        tokens_length: usize,
        words: *mut u64,
        words_length: usize,
        first: *mut u8,
        first_length: usize,
        second: *mut u8,
        second_length: usize,
        counts: *mut u64,
        counts_length: usize,
    ) -> u64;

    fn teplonga_clause_sweep(
        clauses: *const u8,
        clauses_length: usize,
        bound: usize,
        words: *mut u64,
        words_length: usize,
        found: *mut u64,
        found_length: usize,
    ) -> u64;

    fn teplonga_expand(
        clauses: *const u8,
        clauses_length: usize,
        sheet: *mut u8,
        sheet_length: usize,
        count: *mut u64,
        count_length: usize,
    ) -> u64;

    fn teplonga_clause_refused_line(
        clauses: *const u8,
        clauses_length: usize,
        tokens: *const u8,
        tokens_length: usize,
        line: *mut Part,
    );

    fn teplonga_show(
        rules: *const u8,
        rules_length: usize,
        tokens: *const u8,
        tokens_length: usize,
        rights: *const u8,
        rights_length: usize,
        user: usize,
        words: *mut u64,
        words_length: usize,
        first: *mut u8,
        first_length: usize,
        second: *mut u8,
        second_length: usize,
        counts: *mut u64,
        counts_length: usize,
    ) -> u64;

    fn teplonga_change(
        rules: *const u8,
        rules_length: usize,
        rights: *const u8,
        rights_length: usize,
        user: usize,
        rule: usize,
        lay: *const u8,
        lay_length: usize,
        bytes: *mut u8,
        bytes_length: usize,
        count: *mut u64,
        count_length: usize,
    ) -> u64;

    fn teplonga_share(
        rules: *const u8,
        rules_length: usize,
        length: usize,
        racks: usize,
        index: usize,
        words: *mut u64,
        words_length: usize,
        numbers: *mut u64,
        numbers_length: usize,
        found: *mut u64,
        found_length: usize,
    ) -> u64;

    fn teplonga_always(
        rules: *const u8,
        rules_length: usize,
        words: *mut u64,
        words_length: usize,
        list: *mut u8,
        list_length: usize,
        count: *mut u64,
        count_length: usize,
    ) -> u64;

    fn teplonga_clause_always(
        clauses: *const u8,
        clauses_length: usize,
        words: *mut u64,
        words_length: usize,
        list: *mut u8,
        list_length: usize,
        count: *mut u64,
        count_length: usize,
    ) -> u64;

    fn teplonga_merge(
        one: u64,
        number: u64,
        length: usize,
        two: u64,
        other: u64,
        size: usize,
    ) -> u64;

    fn teplonga_columns(
        rules: *const u8,
        rules_length: usize,
        ranges: *const u8,
        ranges_length: usize,
        words: *mut u64,
        words_length: usize,
        found: *mut u64,
        found_length: usize,
    ) -> u64;

    fn teplonga_columns_refused_line(
        rules: *const u8,
        rules_length: usize,
        ranges: *const u8,
        ranges_length: usize,
        line: *mut Part,
    );
}

/// Calls a C function: `read` hands on a slice, `write` a slice that is lent to
/// be written, `number` a number, `part` the place of a part.
macro_rules! call {
    ($function:ident: $($way:ident $argument:expr),+) => {
        call!(@ $function [] $($way $argument),+)
    };
    (@ $function:ident [$($given:expr),*] read $slice:expr $(, $($rest:tt)*)?) => {
        call!(@ $function [$($given,)* $slice.as_ptr(), $slice.len()] $($($rest)*)?)
    };
    (@ $function:ident [$($given:expr),*] write $slice:expr $(, $($rest:tt)*)?) => {
        call!(@ $function [$($given,)* $slice.as_mut_ptr(), $slice.len()] $($($rest)*)?)
    };
    (@ $function:ident [$($given:expr),*] number $number:expr $(, $($rest:tt)*)?) => {
        call!(@ $function [$($given,)* $number] $($($rest)*)?)
    };
    (@ $function:ident [$($given:expr),*] part $part:expr $(, $($rest:tt)*)?) => {
        call!(@ $function [$($given,)* &mut $part] $($($rest)*)?)
    };
    // SAFETY: each pointer comes with its slice's length. What is written is
    // borrowed mutably, so it is lent to this call alone and overlaps nothing
    // else of it. A part begins as one of the first sheet.
    (@ $function:ident [$($given:expr),*]) => {
        unsafe { $function($($given),*) }
    };
}

/// The answer of a call: its code times 2^32 plus the line.
pub type Word = u64;

/// The verdict.
pub fn verdict(rules: &[u8], tokens: &[u8], words: &mut [u64]) -> Word {
    call!(teplonga_verdict: read rules, read tokens, write words)
}

/// The verdict on a clause sheet.
pub fn clause_verdict(clauses: &[u8], tokens: &[u8], words: &mut [u64]) -> Word {
    call!(teplonga_clause_verdict: read clauses, read tokens, write words)
}

/// The verdict, and the row counts of both trees.
pub fn trees(
    rules: &[u8],
    tokens: &[u8],
    words: &mut [u64],
    first: &mut [u8],
    second: &mut [u8],
) -> (Word, [usize; 2]) {
    let mut counts = [0; 2];
    let word = call!(
        teplonga_trees: read rules, read tokens, write words, write first, write second,
        write counts
    );
    (word, counts.map(in_memory))
}

/// The same for a clause sheet.
pub fn clause_trees(
    clauses: &[u8],
    tokens: &[u8],
    words: &mut [u64],
    first: &mut [u8],
    second: &mut [u8],
) -> (Word, [usize; 2]) {
    let mut counts = [0; 2];
    let word = call!(
        teplonga_clause_trees: read clauses, read tokens, write words, write first, write second,
        write counts
    );
    (word, counts.map(in_memory))
}

/// The verdict, and the numbers of rows shown of both trees.
pub fn show(
    [rules, tokens, rights]: [&[u8]; 3],
    user: usize,
    words: &mut [u64],
    first: &mut [u8],
    second: &mut [u8],
) -> (Word, [usize; 2]) {
    let mut counts = [0; 2];
    let word = call!(
        teplonga_show: read rules, read tokens, read rights, number user, write words,
        write first, write second, write counts
    );
    (word, counts.map(in_memory))
}

/// The verdict, and the row counts of both trees, 2^32 for more than can be
/// told.
pub fn rows(rules: &[u8], tokens: &[u8], words: &mut [u64]) -> (Word, [u64; 2]) {
    let mut counts = [0; 2];
    let word = call!(teplonga_rows: read rules, read tokens, write words, write counts);
    (word, counts)
}

/// The verdict, and the list's number of entries.
pub fn places(rules: &[u8], tokens: &[u8], words: &mut [u64], list: &mut [u8]) -> (Word, usize) {
    let mut count = [0; 1];
    let word = call!(
        teplonga_places: read rules, read tokens, write words, write list, write count
    );
    (word, in_memory(count[0]))
}

/// The test at every length, and its list's number of entries.
pub fn always(rules: &[u8], words: &mut [u64], list: &mut [u8]) -> (Word, usize) {
    let mut count = [0; 1];
    let word = call!(teplonga_always: read rules, write words, write list, write count);
    (word, in_memory(count[0]))
}

/// The same for a clause sheet.
pub fn clause_always(clauses: &[u8], words: &mut [u64], list: &mut [u8]) -> (Word, usize) {
    let mut count = [0; 1];
    let word = call!(teplonga_clause_always: read clauses, write words, write list, write count);
    (word, in_memory(count[0]))
}

/// A word for each of none, one and two: 1 for yes.
pub fn columns(rules: &[u8], ranges: &[u8], words: &mut [u64]) -> (Word, [u64; 3]) {
    let mut found = [0; 3];
    let word = call!(teplonga_columns: read rules, read ranges, write words, write found);
    (word, found)
}

/// The sweep. `found` gets the sentence and how many candidates were tried, if
/// it has 23 words.
pub fn sweep(rules: &[u8], bound: usize, words: &mut [u64], found: &mut [u64]) -> Word {
    call!(teplonga_sweep: read rules, number bound, write words, write found)
}

/// The same for a clause sheet.
pub fn clause_sweep(clauses: &[u8], bound: usize, words: &mut [u64], found: &mut [u64]) -> Word {
    call!(teplonga_clause_sweep: read clauses, number bound, write words, write found)
}

/// One share of a sweep: the lowest number, the quotient and the remainder.
pub fn share(
    rules: &[u8],
    [length, racks, index]: [usize; 3],
    words: &mut [u64],
    found: &mut [u64],
) -> (Word, [u64; 3]) {
    let mut numbers = [0; 3];
    let word = call!(
        teplonga_share: read rules, number length, number racks, number index, write words,
        write numbers, write found
    );
    (word, numbers)
}

/// Which of two reports is the merged one, 0 or 1: the answer, the lowest number and
/// the length of the sentence of each.
pub fn merge([one, number, length]: [u64; 3], [two, other, size]: [u64; 3]) -> u64 {
    let [length, size] = [length, size].map(in_memory);
    call!(
        teplonga_merge: number one, number number, number length, number two, number other,
        number size
    )
}

/// The number of bytes of the changed sheet.
pub fn change(
    rules: &[u8],
    rights: &[u8],
    [user, rule]: [usize; 2],
    lay: &[u8],
    bytes: &mut [u8],
) -> (Word, usize) {
    let mut count = [0; 1];
    let word = call!(
        teplonga_change: read rules, read rights, number user, number rule, read lay, write bytes,
        write count
    );
    (word, in_memory(count[0]))
}

/// The number of bytes of the expanded sheet.
pub fn expand(clauses: &[u8], sheet: &mut [u8]) -> (Word, usize) {
    let mut count = [0; 1];
    let word = call!(teplonga_expand: read clauses, write sheet, write count);
    (word, in_memory(count[0]))
}

/// The refused line, as a part of the sheet that holds it.
pub fn refused_line<'a>(rules: &'a [u8], tokens: &'a [u8]) -> &'a [u8] {
    let mut line = start_of(rules);
    call!(teplonga_refused_line: read rules, read tokens, part line);
    within_either(rules, tokens, &line)
}

/// That of a clause sheet and a token sheet.
pub fn clause_refused_line<'a>(clauses: &'a [u8], tokens: &'a [u8]) -> &'a [u8] {
    let mut line = start_of(clauses);
    call!(teplonga_clause_refused_line: read clauses, read tokens, part line);
    within_either(clauses, tokens, &line)
}

/// That of a rule sheet and a range sheet.
pub fn columns_refused_line<'a>(rules: &'a [u8], ranges: &'a [u8]) -> &'a [u8] {
    let mut line = start_of(rules);
    call!(teplonga_columns_refused_line: read rules, read ranges, part line);
    within_either(rules, ranges, &line)
}

/// A count of what lies in memory.
fn in_memory(count: u64) -> usize {
    count as usize
}

/// The first zero bytes of a sheet.
fn start_of(sheet: &[u8]) -> Part {
    Part { at: sheet.as_ptr(), length: 0 }
}

/// The part as a slice of this sheet, if it lies within.
fn within<'a>(sheet: &'a [u8], part: &Part) -> Option<&'a [u8]> {
    let start = part.at.addr().checked_sub(sheet.as_ptr().addr())?;
    sheet.get(start..start.checked_add(part.length)?)
}

/// The part as a slice of the one sheet or the other.
fn within_either<'a>(one: &'a [u8], other: &'a [u8], part: &Part) -> &'a [u8] {
    within(one, part).or_else(|| within(other, part)).expect("a part of one of the sheets")
}

#[cfg(test)]
mod tests {
    use super::*;

    const RULES: &[u8] = b"left kind first second lay\n0 A 5 - none\n0 U 1 - none\n1 A 5 - none\n";

    /// What `found` of so many places holds after a sweep.
    fn found_after(bound: usize, size: usize) -> Vec<u64> {
        let mut found = vec![9; size];
        sweep(RULES, bound, &mut [0; 4], &mut found);
        found
    }

    #[test]
    fn few_places_for_a_sentence_stay_as_they_are() {
        assert_eq!(found_after(1, 0), []);
        assert_eq!(found_after(1, 22), [9; 22]);
    }

    #[test]
    fn places_past_a_sentence_are_0_the_tried_are_counted_and_places_past_23_stay() {
        let found = found_after(1, 25);
        assert_eq!(found[..4], [1, 5, 1, 1]);
        assert_eq!(found[4..22], [0; 18]);
        assert_eq!(found[22..], [1, 9, 9]);
        assert_eq!(found_after(0, 24), [vec![0; 23], vec![9]].concat());
    }

    #[test]
    fn a_part_is_looked_for_in_its_sheet() {
        let sheets = b"abcdef";
        let (one, other) = sheets.split_at(3);
        let part = |start: usize, length| Part { at: &sheets[start], length };
        assert_eq!(within(one, &part(1, 2)), Some(&b"bc"[..]));
        assert_eq!(within(other, &part(1, 2)), None);
        assert_eq!(within(one, &part(3, 1)), None);
        assert_eq!(within(other, &part(3, 1)), Some(&b"d"[..]));
        assert_eq!(within(one, &part(1, usize::MAX)), None);
    }
}
