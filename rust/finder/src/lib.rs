//! Looks for a sentence with two trees, longer than a sweep goes.
//!
//! A sweep tries all short sentences. This search takes one length after the other and asks for
//! both trees and the layout at once: the nodes of all trees of that length, their choices, the
//! order of the columns and the beginnings of lines become variables that are true or false, and
//! clauses say how they hang together (`trees`, `layout`, `tokens`). One more clause asks for a
//! fork: a node in a whole tree that has two choices (`forks`). A model of all clauses (`search`) is
//! a sentence (`patch`), which is then made easy to read (`tidy`).
//!
//! Nothing of it is proved. A sentence counts because the proved verdict says `two` of it, and
//! where nothing is found nothing is claimed.

#![deny(unsafe_code)]
#![warn(missing_docs)]

mod child;
#[allow(unsafe_code)]
mod counted;
mod empty;
mod find;
mod forks;
mod formula;
mod guide;
mod layout;
mod lengths;
mod limits;
mod loops;
mod patch;
mod rule;
mod search;
mod shapes;
mod sheet;
mod tidy;
mod tokens;
mod trees;

pub use find::{Finder, Found};
pub use guide::{places, Guide};
pub use limits::{Limits, Stop};
pub use patch::Patch;
