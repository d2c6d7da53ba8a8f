//! Second implementation of the beat-line take editor, to compare the proved
//! engine with. Written from the paper alone.
//!
//! The six calls, fast and plain, on lent words and bytes:
//! [`open()`], [`lay()`], [`split()`], [`join()`], [`load()`], [`write()`].
//!
//! - [`header`]: the header words, where shelves lie, `open`
//! - [`question`]: the numbers of the questions
//! - [`shelf`]: a shelf's words as a take
//! - [`cell`], [`runs`]: the rules on cells and the notes that they give
//! - [`sound`]: question 4
//! - [`recording`], [`lay`](mod@lay): notes and their cells
//! - [`split`](mod@split), [`join`](mod@join): cutting and joining
//! - [`track`], [`load`](mod@load), [`write`](mod@write): files
//! - [`call`], [`frame`], [`cutter`]: calls as data, as lines, and the program
//! - [`plain`]: the slow and literal machine that the calls are tested against
//! - [`random`], [`generate`]: seeded numbers, and lists of calls made from them

pub mod call;
pub mod cell;
pub mod cutter;
pub mod frame;
pub mod generate;
pub mod header;
pub mod join;
pub mod lay;
pub mod load;
pub mod plain;
pub mod question;
pub mod random;
pub mod recording;
pub mod runs;
pub mod shelf;
pub mod sound;
pub mod split;
pub mod track;
pub mod write;

pub use header::open;
pub use join::join;
pub use lay::lay;
pub use load::load;
pub use split::split;
pub use write::write;
