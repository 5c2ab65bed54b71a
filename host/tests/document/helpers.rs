//! What the tests share: job 7, refusals, random numbers.

pub use crate::common::jobs::job7;
pub use crate::common::random::Random;
use host::record::{Interval, Job, Total, INTERVAL, TOTAL};
use host::{days, list, Answer};

/// Job 7 is hidden from here to here. By document 01's table of 1,025 entries the last was 4,200,000.
///
/// The far body is along x, so hidden is |Y| < 5,000,000, and Y is the floor of ±10^7·s/2^30, s the sine's size. At 3,000,000 and
/// 4,200,000 the reading is in segment 1365, from 536,752,038 to 537,108,633, by 87,382 and 87,381 of 2^18 units: s is 536,870,903
/// and 536,870,902, and 10^7·s/2^30 is 4,999,999.916.. and 4,999,999.906... Y is above 0 at the first, and its floor short of
/// 5,000,000; at the second it is below 0, and its floor is −5,000,000, which is not hidden.
pub const SHADOW: [u64; 2] = [3_000_000, 4_199_999];
/// The instants that are asked: 13 samples, and both changes lie at the end of their steps of 600,000 ms.
pub const ASKED: u64 = 13 + 20 + 20;

/// Job 7 with another window.
pub fn job7_in(t0: u64, t1: u64, step: u32) -> Job {
    Job {
        t0,
        t1,
        step,
        ..job7()
    }
}

/// Document 02, wish 2: one turn of the station, ms.
pub const STATION_TURN: f64 = 86_164_090.5;
/// Document 02, wish 3: a day, ms.
pub const DAY: u64 = 86_400_000;
/// Document 01, Turned away: the end of the latest window, ms.
pub const MONTH: u64 = 2_678_400_000;
/// A byte no list begins with, to see what is kept.
pub const KEPT: u8 = 0xA5;
/// Room for the longest list.
pub const ROOM: usize = 24 * 2049;

pub fn listed(intervals: u64, asked: u64) -> Answer {
    Answer {
        refusal: 0,
        field: 0,
        number: 0,
        intervals,
        asked,
    }
}

/// The answer for any bytes and room; what must be kept is checked here.
pub fn answer_of(record: &[u8], room: usize) -> (Answer, Vec<Interval>) {
    let mut buffer = vec![KEPT; room];
    let answer = list(record, &mut buffer);
    let written = answer.intervals as usize * INTERVAL;
    assert!(
        buffer[written..].iter().all(|&b| b == KEPT),
        "a byte was changed"
    );
    let intervals = buffer[..written].chunks(INTERVAL);
    (
        answer,
        intervals.map(|b| Interval::decode(b).unwrap()).collect(),
    )
}

pub fn run(job: &Job) -> (Answer, Vec<Interval>) {
    answer_of(&job.encode(), ROOM)
}

pub fn interval(flags: u32, first: u64, last: u64) -> Interval {
    Interval {
        job: 7,
        flags,
        first,
        last,
    }
}

/// Job 7 over another window, however long that is.
pub fn job7_over(t0: u64, t1: u64) -> Job {
    job7_in(t0, t1, 1_048_576)
}

/// A list's bytes, of intervals by first and last.
pub fn bytes_of(list: &[(u64, u64)]) -> Vec<u8> {
    let record = |&(first, last): &(u64, u64)| interval(0, first, last).encode();
    list.iter().flat_map(record).collect()
}

/// A summary's record: day, intervals, instants.
pub fn total(day: u32, intervals: u32, instants: u64) -> Total {
    Total {
        day,
        intervals,
        instants,
    }
}

/// What is answered where a summary of so many days is written.
pub fn summed(days: usize) -> Answer {
    listed(days as u64, 0)
}

/// The summary for any bytes and room; what must be kept is checked here.
pub fn summary_of(record: &[u8], list: &[u8], room: usize) -> (Answer, Vec<Total>) {
    let mut buffer = vec![KEPT; room];
    let answer = days(record, list, &mut buffer);
    let written = answer.intervals as usize * TOTAL;
    assert!(
        buffer[written..].iter().all(|&b| b == KEPT),
        "a byte was changed"
    );
    let totals = buffer[..written].chunks(TOTAL);
    (answer, totals.map(|b| Total::decode(b).unwrap()).collect())
}

/// A good list's totals, with just the room that they need.
pub fn totals_of(job: &Job, list: &[(u64, u64)]) -> Vec<Total> {
    let need = TOTAL * (job.t1 / DAY - job.t0 / DAY + 1) as usize;
    let (answer, totals) = summary_of(&job.encode(), &bytes_of(list), need);
    assert_eq!(answer, summed(need / TOTAL), "{list:?}");
    totals
}

/// Document 01's accepted column, written out again: least, most, most accepted.
pub const ACCEPTED: [(f64, f64, bool); 13] = [
    (100.0, 250000.0, true),
    (0.0, 0.95, true),
    (0.0, 180.0, true),
    (0.0, 360.0, false),
    (0.0, 360.0, false),
    (60.0, 2000000.0, true),
    (1.0, 100000.0, true),
    (0.0, 360.0, false),
    (-90.0, 90.0, true),
    (-90.0, 90.0, true),
    (0.0, 360.0, false),
    (0.0, 360.0, false),
    (0.0, 90.0, true),
];

impl Random {
    /// Great and small alike.
    pub fn spread(&mut self, least: f64, most: f64) -> f64 {
        let log = self.float(least.ln(), most.ln());
        log.exp().clamp(least, most)
    }

    /// An accepted job of some tens of samples.
    pub fn job(&mut self) -> Job {
        let mut fields = [0.0; 13];
        for (field, (least, most, _)) in fields.iter_mut().zip(ACCEPTED) {
            *field = self.float(least, most);
        }
        fields[0] = self.spread(100.0, 100_000.0);
        fields[1] = fields[1] * fields[1]; // shadows are rare at great e
        fields[5] = self.spread(60.0, 2_000_000.0);
        fields[12] = self.float(0.0, 20.0);
        let closest = fields[0] * (1.0 - fields[1]);
        fields[6] = (closest * self.float(0.5, 0.9999)).clamp(1.0, 100_000.0);
        let period = fields[5] * 1000.0;
        let step = self.spread(period / 50.0, period * 2.0);
        let step = step.clamp(1.0, 1_048_576.0) as u32;
        let length = 1 + self.below(u64::from(step) * 80);
        let t0 = self.below(2_678_400_000 - length);
        Job {
            job: self.bits() as u32,
            word: 0,
            fields,
            t0,
            t1: t0 + length,
            step,
            question: 1 + self.below(2) as u32,
        }
    }
}
