//! Document 01 once more, in plain Rust: an implementation written from the
//! document, and from six readings of it (docs/DECISIONS.md, entry 68), with no
//! sight of the crates, to be set against the proved one; with document 02's
//! wishes 1 to 3, 5 and 6, written likewise; `root` is an exception, and says so. Modules
//! by document 01's headings; a comment at each rule names its place.

// The document's letters are kept: E (an anomaly) is not e (the eccentricity).
#![allow(non_snake_case)]
#![forbid(unsafe_code)]

pub mod big;
pub mod days;
pub mod job;
pub mod kepler;
pub mod place;
pub mod program;
pub mod record;
pub mod refusal;
pub mod root;
pub mod rotation;
pub mod scaled;
pub mod search;
pub mod sight;
pub mod sine;
pub mod whole;

pub use days::{append, days};
pub use job::{list, Answer};
pub use program::{program, totals};
