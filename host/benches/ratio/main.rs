//! The proved code's time by the independent Rust's, on the same jobs in one process. The independent
//! Rust searches each E in full, as document 01 says; of the proved search a guess leaves a part.
//!
//! Each case is run several times, the two sides in turn, and the best time of each counts. The
//! last line has the worst ratio. With `QUECHOTZAL_QUICK` set the runs are few and short: a test
//! that both sides still answer alike, and a rough measure.

#[cfg(door)]
mod cases;
#[cfg(door)]
#[path = "../../tests/common/mod.rs"]
mod common;
#[cfg(door)]
mod measured;
#[cfg(all(door, whole_root))]
mod roots;

#[cfg(door)]
fn main() {
    let cases = cases::all();
    #[cfg(whole_root)]
    let cases = cases
        .into_iter()
        .chain([roots::of_jobs()])
        .collect::<Vec<_>>();
    #[cfg(not(whole_root))]
    println!("without the whole square root: `tools/whole_root` writes its archive, for x86-64");
    measured::print(&cases);
}

#[cfg(not(door))]
fn main() {
    println!(
        "the door is not linked: its archive, which `tools/door` writes, is for x86-64"
    );
    println!("QUECHOTZAL_DOOR may name an archive for the machine at hand");
    println!("nothing is measured");
}
