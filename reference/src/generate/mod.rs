//! Random note lists, files, calls and frames, the same for the same seed.
//!
//! - [`notes`]: note lists whose notes often touch and cross lines
//! - [`files`]: files with every kind of event, and damage to files
//! - [`calls`]: calls that follow a session's state
//! - [`frames`]: lines for the cutter, malformed ones too
//! - [`takes`]: sound shelves that need not come from calls

pub mod calls;
pub mod files;
pub mod frames;
pub mod notes;
pub mod takes;
