//! What the source reports print, held against the proved programs, `lists` and `instants`. The independent implementation
//! has to give the very same numbers, so what is shown of one is shown of both.
//!
//! - 000: NASA TN D-5104, the program VAMOOS. Orbits of Venus, appendix C.
//! - 002: visibility of a planetary satellite from a tracking station, the program OCCULT. An orbit of Mars, "An example", page 11.
//! - 003: area coverage by orbital photoimaging systems. An orbit of Mars, table III.
//! - 004: NASA TM X-65750, IMP-6. Orbits of the Earth, appendix C, page 62 on.
//!
//! A file for each. The texts of 000 and 003 have no page numbers; what is held of 000 is about appendix C, "Sample Output", where β = 50 is the
//! first sheet and β = 60 the second. 001 is a manual and prints no results. The texts are read from scans; where a digit was misread, a comment says so.

#![allow(non_snake_case)]

#[path = "../common/mod.rs"]
mod common;
mod printed;
mod programs;
mod report_000;
mod report_002;
mod report_003;
mod report_004;
