//! The paper taken word by word, slow and literal, to compare the fast calls
//! with. It shares only [`crate::call::Call`] with them.
//!
//! - [`piece`]: notes, cells and pieces; how a recording gives them
//! - [`rules`]: stands alone, bound, hidden, runs; a shelf's words
//! - [`machine`]: the plain machine with its recordings and histories
//! - [`sound`]: soundness, clause by clause
//! - [`mod@file`]: reading and writing a file
//! - [`calls`]: every call on words, with its questions in order

pub mod calls;
pub mod file;
pub mod machine;
pub mod piece;
pub mod rules;
pub mod sound;
