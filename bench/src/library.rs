//! Calls of the proved library, by the Rust crate's functions. Without the
//! feature `library` there are none: the verdict and the sweep answer nothing
//! then, and the calls that have no twin are left out.

/// Is the library linked?
pub const LINKED: bool = cfg!(feature = "library");

/// How many places of `found` a sweep needs: the sentence's length, terminal,
/// line and column of seven tokens, and how many candidates were tried.
pub const FOUND: usize = 23;

#[cfg(feature = "library")]
mod linked {
    use crate::c;

    /// The verdict's code times 2^32 plus the line; `words` get the span sheet.
    pub fn verdict(rules: &[u8], tokens: &[u8], words: &mut [u64]) -> Option<u64> {
        Some(c::verdict(rules, tokens, words))
    }

    /// The sweep's code times 2^32 plus the line; `found` gets the sentence and
    /// how many candidates were tried.
    pub fn sweep(rules: &[u8], bound: u64, words: &mut [u64], found: &mut [u64]) -> Option<u64> {
        Some(c::sweep(rules, bound as usize, words, found))
    }
}

#[cfg(not(feature = "library"))]
mod linked {
    pub fn verdict(_: &[u8], _: &[u8], _: &mut [u64]) -> Option<u64> {
        None
    }

    pub fn sweep(_: &[u8], _: u64, _: &mut [u64], _: &mut [u64]) -> Option<u64> {
        None
    }
}

pub use linked::{sweep, verdict};

#[cfg(feature = "library")]
pub use crate::c::{change, clause_verdict, columns, expand, places, rows, share, show, trees};
