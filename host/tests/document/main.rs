//! Document 01's own numbers, its refusals and lists, document 02's wishes 1 to 3 and 5, and properties over seeded pseudo-random jobs: a file for each paragraph.

#![allow(non_snake_case)]

mod append;
#[path = "../common/mod.rs"]
mod common;
mod days;
mod helpers;
mod list_refusals;
mod marked;
mod place;
mod program;
mod properties;
mod record;
mod refusal;
mod runs;
mod scaled;
mod search;
mod sight;
mod sine;
mod whole;
mod why;
