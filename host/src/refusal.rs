//! Document 01, Turned away: the table, tried in its order; and the rows that
//! document 02's wish 3 adds to it.

use crate::record::{Job, INTERVAL};

/// The end of the latest window, ms.
pub const LATEST: u64 = 2_678_400_000;
/// The longest step, ms.
pub const LONGEST_STEP: u32 = 1_048_576;
/// The most steps of a window.
pub const MOST_STEPS: u64 = 4096;

/// The table's rows, and wish 3's two. 10 isn't used again (wish 6).
#[derive(Debug, Clone, Copy, PartialEq, Eq)]
pub enum Refusal {
    Length,
    Word,
    NotFinite { field: u32, bits: u64 },
    OutOfRange { field: u32, bits: u64 },
    Distance { bits: u64 },
    Window,
    Step,
    Question,
    Room,
    SummaryRoom,
    List,
}

impl Refusal {
    /// The row's number, its field and the bits of the number returned.
    pub fn row(self) -> (u32, u32, u64) {
        match self {
            Refusal::Length => (1, 0, 0),
            Refusal::Word => (2, 0, 0),
            Refusal::NotFinite { field, bits } => (3, field, bits),
            Refusal::OutOfRange { field, bits } => (4, field, bits),
            Refusal::Distance { bits } => (5, 0, bits),
            Refusal::Window => (6, 0, 0),
            Refusal::Step => (7, 0, 0),
            Refusal::Question => (8, 0, 0),
            Refusal::Room => (9, 0, 0),
            Refusal::SummaryRoom => (11, 0, 0),
            Refusal::List => (12, 0, 0),
        }
    }
}

/// The numbers a field accepts.
#[derive(Debug, Clone, Copy, PartialEq)]
pub struct Range {
    pub least: f64,
    pub most: f64,
    /// Whether `most` itself is accepted; `least` always is.
    pub with_most: bool,
}

/// Ends are included unless said.
const fn to(least: f64, most: f64) -> Range {
    Range {
        least,
        most,
        with_most: true,
    }
}

/// 0 up to, not with, 360.
const AROUND: Range = Range {
    least: 0.0,
    most: 360.0,
    with_most: false,
};

/// Document 01, What the desk feeds and gets: accepted, fields 1 to 13.
pub const RANGES: [Range; 13] = [
    to(100.0, 250_000.0),
    to(0.0, 0.95),
    to(0.0, 180.0),
    AROUND,
    AROUND,
    to(60.0, 2_000_000.0),
    to(1.0, 100_000.0),
    AROUND,
    to(-90.0, 90.0),
    to(-90.0, 90.0),
    AROUND,
    AROUND,
    to(0.0, 90.0),
];

impl Range {
    /// Minus zero is zero: floats compare so.
    pub fn accepts(&self, x: f64) -> bool {
        self.least <= x && (x < self.most || (self.with_most && x == self.most))
    }
}

/// n, the number of steps: ceil((t1 − t0)/step). Asked only with t0 < t1 and a
/// step of at least 1.
pub fn steps(job: &Job) -> u64 {
    (job.t1 - job.t0).div_ceil(u64::from(job.step))
}

/// The room a window of n steps asks for, in bytes: 24·ceil((n+1)/2).
pub fn room_for(n: u64) -> u64 {
    INTERVAL as u64 * (n + 1).div_ceil(2)
}

/// Rows 1 to 9 in order: the record's numbers, or the first refusal that
/// applies.
pub fn check(record: &[u8], room: usize) -> Result<Job, Refusal> {
    let job = Job::decode(record).ok_or(Refusal::Length)?;
    refuse_if(job.word != 0, Refusal::Word)?;
    check_fields(&job.fields)?;
    check_distance(&job.fields)?;
    refuse_if(job.t0 >= job.t1 || job.t1 > LATEST, Refusal::Window)?;
    refuse_if(job.step == 0 || job.step > LONGEST_STEP, Refusal::Step)?;
    refuse_if(steps(&job) > MOST_STEPS, Refusal::Step)?;
    refuse_if(job.question != 1 && job.question != 2, Refusal::Question)?;
    refuse_if((room as u64) < room_for(steps(&job)), Refusal::Room)?;
    Ok(job)
}

pub(crate) fn refuse_if(applies: bool, refusal: Refusal) -> Result<(), Refusal> {
    if applies {
        Err(refusal)
    } else {
        Ok(())
    }
}

/// Rows 3 and 4 together: fields in number order, 3 before 4 for each.
fn check_fields(fields: &[f64; 13]) -> Result<(), Refusal> {
    for (number, (x, range)) in (1..).zip(fields.iter().zip(&RANGES)) {
        let (field, bits) = (number, x.to_bits());
        refuse_if(!x.is_finite(), Refusal::NotFinite { field, bits })?;
        refuse_if(!range.accepts(*x), Refusal::OutOfRange { field, bits })?;
    }
    Ok(())
}

/// Row 5: the closest distance is a × (1 − e), each operation rounded once, and
/// must be greater than R; floats in km, before any rounding to metres.
fn check_distance(fields: &[f64; 13]) -> Result<(), Refusal> {
    let (a, e, R) = (fields[0], fields[1], fields[6]);
    let closest = a * (1.0 - e);
    let bits = closest.to_bits();
    refuse_if(closest <= R, Refusal::Distance { bits })
}
