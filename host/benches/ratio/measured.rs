//! How it is measured.

use super::cases::Case;
use super::common::door::{self, ANSWER};
use super::common::jobs::LONGEST_LIST;
use std::env;
use std::hint::black_box;
use std::time::{Duration, Instant};

/// One side: the answer's bytes for a record and a list, and what is written.
pub type Side = fn(&[u8], &[u8], &mut [u8]) -> [u8; ANSWER];

pub struct Sides {
    pub proved: Side,
    pub independent: Side,
}

/// The record's list is written; the list that is given does not matter.
pub const LISTING: Sides = Sides {
    proved: |record, _, list| {
        let mut answer = [0; ANSWER];
        door::list(record, list, &mut answer);
        answer
    },
    independent: |record, _, list| door::encode(&host::list(record, list)),
};

/// The list's summary is written.
pub const SUMMING: Sides = Sides {
    proved: |record, list, summary| {
        let mut answer = [0; ANSWER];
        door::days(record, list, summary, &mut answer);
        answer
    },
    independent: |record, list, summary| door::encode(&host::days(record, list, summary)),
};

/// How long a run is at least, and how many there are of each side.
struct Effort {
    least: Duration,
    runs: u32,
}

fn effort() -> Effort {
    match env::var_os("QUECHOTZAL_QUICK") {
        Some(_) => Effort {
            least: Duration::from_millis(2),
            runs: 3,
        },
        None => Effort {
            least: Duration::from_millis(20),
            runs: 25,
        },
    }
}

pub fn print(cases: &[Case]) {
    let effort = effort();
    println!(
        "{:36}{:>7}{:>10}{:>12}{:>14}{:>8}",
        "case", "jobs", "instants", "ns proved", "independent", "ratio"
    );
    let mut worst = (0.0, "");
    for case in cases {
        let ratio = row(case, &effort);
        if ratio > worst.0 {
            worst = (ratio, case.name);
        }
    }
    println!(
        "ns an instant, or a record or a root where none is asked; the best of {} runs of each side",
        effort.runs
    );
    println!("worst ratio {:.2}: {}", worst.0, worst.1);
}

/// Measures a case and prints its row; the ratio.
fn row(case: &Case, effort: &Effort) -> f64 {
    let instants = same_answers(case);
    let rounds = rounds(case, effort);
    let Sides {
        proved,
        independent,
    } = case.sides;
    let [mut proved_best, mut independent_best] = [f64::INFINITY; 2];
    for _ in 0..effort.runs {
        proved_best = proved_best.min(seconds(case, proved, rounds));
        independent_best = independent_best.min(seconds(case, independent, rounds));
    }
    let jobs = case.records.len();
    let counted = if instants > 0 { instants } else { jobs as u64 };
    let each = 1e9 / (counted * u64::from(rounds)) as f64;
    let ratio = proved_best / independent_best;
    println!(
        "{:36}{jobs:7}{instants:10}{:12.2}{:14.2}{ratio:8.2}",
        case.name,
        proved_best * each,
        independent_best * each
    );
    ratio
}

/// Both sides answer each job alike; the instants that are asked in all.
fn same_answers(case: &Case) -> u64 {
    let mut instants = 0;
    for record in &case.records {
        let [mut by_proved, mut by_independent] = [[0; LONGEST_LIST]; 2];
        let (proved, independent) = (case.sides.proved, case.sides.independent);
        let answer = proved(record, &case.list, &mut by_proved[..case.room]);
        let alike = answer == independent(record, &case.list, &mut by_independent[..case.room])
            && by_proved == by_independent;
        assert!(
            alike,
            "{}: the two sides disagree; the tests of agreement tell how",
            case.name
        );
        instants += door::decode(&answer).unwrap().asked;
    }
    instants
}

/// How often the jobs are done in a run, for it to be long enough.
fn rounds(case: &Case, effort: &Effort) -> u32 {
    let independent = case.sides.independent;
    let once = seconds(case, independent, 1).min(seconds(case, independent, 1));
    (effort.least.as_secs_f64() / once).ceil() as u32
}

fn seconds(case: &Case, side: Side, rounds: u32) -> f64 {
    let mut lent = vec![0; case.room];
    let start = Instant::now();
    for _ in 0..rounds {
        for record in &case.records {
            let (record, list) = (black_box(record), black_box(&case.list));
            black_box(side(record, list, black_box(&mut lent)));
        }
    }
    start.elapsed().as_secs_f64()
}
