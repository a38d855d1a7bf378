//! Benchmark of the proved library against a plain Rust twin.

pub mod clauses;
pub mod clock;
pub mod families;
pub mod late;
pub mod library;
pub mod random;
pub mod twin;
pub mod visited;

// The proved library's C functions, as the Rust crate declares and wraps them.
#[cfg(feature = "library")]
#[allow(dead_code)]
#[path = "../../rust/src/c.rs"]
mod c;
