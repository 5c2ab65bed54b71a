//! Jobs on both sides of each limit: every refusal, every field, several at once.

use super::super::jobs::{self, over, put_field, LONGEST_STEP, MONTH, MOST_STEPS};
use super::super::random::Random;
use super::Pieces;
use host::record::Job;
use host::refusal::{Range, RANGES};

/// Each field at each of the numbers that matter, the others plausible.
pub fn fields(random: &mut Random) -> Pieces {
    let mut pieces = Pieces::new();
    for k in 1..=13 {
        for bits in numbers(random, RANGES[k - 1]) {
            pieces.extend(with_field(random, k, bits));
        }
    }
    pieces
}

/// For both questions; and with room between the orbit and the planet whatever the field is, so
/// that no refusal 5 hides the answer.
fn with_field(random: &mut Random, k: usize, bits: u64) -> [Vec<u8>; 4] {
    let plausible = jobs::any(random);
    let roomy = roomy(jobs::any(random), k);
    [(plausible, 1), (plausible, 2), (roomy, 1), (roomy, 2)].map(|(job, question)| {
        let mut record = Job { question, ..job }.encode().to_vec();
        put_field(&mut record, k, bits);
        record
    })
}

fn roomy(mut job: Job, k: usize) -> Job {
    if k == 7 {
        job.fields[0] = 250_000.0;
        job.fields[1] = 0.25;
    } else {
        job.fields[6] = 1.0;
    }
    job
}

/// The bits of: the range's ends and the floats next to them, and what is minus these; zeros,
/// subnormals, the largest, infinities; NaNs, quiet and signalling.
fn numbers(random: &mut Random, range: Range) -> Vec<u64> {
    let Range { least, most, .. } = range;
    let ends = [least, most]
        .into_iter()
        .flat_map(|end| [end.next_down(), end, end.next_up()]);
    let others = [
        0.0,
        5e-324,
        f64::MIN_POSITIVE.next_down(),
        f64::MIN_POSITIVE,
        f64::MAX,
        f64::INFINITY,
    ];
    let payload = random.between(1, (1 << 51) - 1);
    let quiet = 0x7FF8_0000_0000_0000;
    let signalling = 0x7FF0_0000_0000_0000;
    let nans = [
        quiet,
        quiet + payload,
        signalling + 1,
        signalling + payload,
        u64::MAX >> 1,
    ];
    let floats = ends.chain(others).map(f64::to_bits);
    floats
        .chain(nans)
        .flat_map(|bits| [bits, bits ^ (1 << 63)])
        .collect()
}

/// A radius that is the closest distance, and the floats next to it.
pub fn closest_distance(random: &mut Random) -> Pieces {
    let job = |k: usize| {
        let mut job = jobs::any(random);
        job.fields[0] = random.float(100.0, 90_000.0);
        job.fields[1] = random.float(0.0, 0.95);
        let closest = job.fields[0] * (1.0 - job.fields[1]);
        job.fields[6] = [closest.next_down(), closest, closest.next_up()][k % 3];
        job.encode().to_vec()
    };
    (0..600).map(job).collect()
}

/// Window starts and ends on both sides of the limits, each with each.
pub fn windows(random: &mut Random) -> Pieces {
    let start = random.between(1, MONTH / 2);
    let high = 1 << 63;
    let near = [0, 1, start, start + 1, MONTH - 1, MONTH];
    let times = [&near[..], &[MONTH + 1, 1 << 32, high, high + 1, u64::MAX]].concat();
    let window = |k: usize| {
        let (t0, t1) = (times[k % times.len()], times[k / times.len()]);
        over(jobs::any(random), t0, t1, LONGEST_STEP)
            .encode()
            .to_vec()
    };
    (0..times.len() * times.len()).map(window).collect()
}

/// Steps on both sides of the limits, and 4,095 to 4,097 of them, the last one whole, of one
/// ms, or one ms short.
pub fn steps(random: &mut Random) -> Pieces {
    const STEPS: [u64; 9] = [
        0,
        1,
        2,
        1_000,
        653_906,
        LONGEST_STEP - 1,
        LONGEST_STEP,
        LONGEST_STEP + 1,
        u32::MAX as u64,
    ];
    const COUNTS: [u64; 6] = [1, 2, 100, MOST_STEPS - 1, MOST_STEPS, MOST_STEPS + 1];
    let job = |k: usize| {
        let (step, count) = (STEPS[k % 9], COUNTS[k / 9 % 6]);
        let last = [step, 1, step.saturating_sub(1)][k / 54];
        let length = (count - 1) * step + last;
        let t0 = random.between(0, MONTH.saturating_sub(length));
        over(jobs::any(random), t0, t0 + length, step)
            .encode()
            .to_vec()
    };
    (0..9 * 6 * 3).map(job).collect()
}

pub fn questions(random: &mut Random) -> Pieces {
    let questions = [
        0,
        1,
        2,
        3,
        256,
        257,
        258,
        1 << 16 | 1,
        1 << 31,
        1 << 31 | 2,
        u32::MAX,
    ];
    let asked = |question| {
        let job = jobs::any(random);
        Job { question, ..job }.encode().to_vec()
    };
    questions.into_iter().map(asked).collect()
}

/// Each bit of bytes 4..7 by itself, and none of them.
pub fn words(random: &mut Random) -> Pieces {
    let words = (0..32).map(|k| 1 << k).chain([0, u32::MAX]);
    let with_word = |word| {
        let job = jobs::any(random);
        Job { word, ..job }.encode().to_vec()
    };
    words.map(with_word).collect()
}

/// A way to damage a record so that it is turned away.
type Fault = Box<dyn Fn(&mut Vec<u8>)>;

/// The faults in the order in which they are tried, one or more for each refusal.
fn faults() -> Vec<Fault> {
    let mut faults: Vec<Fault> = vec![put(4, 1u32.to_le_bytes())];
    for (k, range) in (1..).zip(RANGES) {
        for x in [f64::NAN, f64::NEG_INFINITY, range.least.next_down()] {
            faults.push(put(8 * k, x.to_le_bytes()));
        }
    }
    faults.push(Box::new(|record| {
        put_field(record, 1, 100.0f64.to_bits());
        put_field(record, 7, 100.0f64.to_bits());
    }));
    faults.push(put(112, u64::MAX.to_le_bytes()));
    faults.push(put(120, (MONTH + 1).to_le_bytes()));
    faults.push(put(128, 0u32.to_le_bytes()));
    faults.push(put(128, u32::MAX.to_le_bytes()));
    faults.push(put(132, 3u32.to_le_bytes()));
    faults
}

fn put<const N: usize>(at: usize, bytes: [u8; N]) -> Fault {
    Box::new(move |record| record[at..at + N].copy_from_slice(&bytes))
}

/// Each fault with each: which of them is told.
pub fn two_faults(random: &mut Random) -> Pieces {
    let faults = faults();
    let both = |k: usize| {
        let mut record = jobs::any(random).encode().to_vec();
        faults[k % faults.len()](&mut record);
        faults[k / faults.len()](&mut record);
        record
    };
    (0..faults.len() * faults.len()).map(both).collect()
}

pub fn several_faults(random: &mut Random) -> Pieces {
    let faults = faults();
    let several = |_| {
        let mut record = jobs::any(random).encode().to_vec();
        for _ in 0..random.between(3, 6) {
            faults[random.between(0, faults.len() as u64 - 1) as usize](&mut record);
        }
        record
    };
    (0..500).map(several).collect()
}
