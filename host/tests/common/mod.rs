//! What the tests of agreement and the benchmark share.

// Each of them uses its part.
#![allow(dead_code, unused_macros, unused_imports)]

pub mod comparing;
pub mod driver;
pub mod families;
pub mod jobs;
pub mod lists;
pub mod random;
pub mod told;

#[cfg(door)]
pub mod calls;
#[cfg(door)]
pub mod door;
#[cfg(whole_root)]
pub mod whole_root;
