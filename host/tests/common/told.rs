//! A disagreement, told so that it can be read and run again.

use super::random::seed;
use host::program::{LISTED, REFUSED};
use host::record::{Interval, Job, Total, INTERVAL, TOTAL};
use host::Answer;
use std::fmt::Write;

const MEANINGS: [&str; 13] = [
    "semimajor axis a, km",
    "eccentricity e",
    "inclination i, degrees",
    "node, degrees",
    "periapsis argument, degrees",
    "period, s",
    "planet radius R, km",
    "right ascension, planet to far body",
    "its declination",
    "station latitude",
    "station east longitude",
    "right ascension of Greenwich at epoch",
    "least elevation",
];

/// Where a piece of input comes from.
pub struct Case<'a> {
    /// The file of the test, and the test in it.
    pub test: &'a str,
    pub family: &'a str,
    pub number: usize,
    pub piece: &'a [u8],
}

/// The job and both answers, line by line; of long ones what stands around their first difference.
pub fn disagreement(case: &Case, independent: &[String], proved: &[String]) -> String {
    let Case {
        test,
        family,
        number,
        piece,
    } = case;
    let seed = seed();
    let same = independent
        .iter()
        .zip(proved)
        .take_while(|(a, b)| a == b)
        .count();
    let mut text = format!(
        "case {number} of {family}, seed {seed}; again by: QUECHOTZAL_SEED={seed} cargo test --release --test {test} {family}\n"
    );
    text += &job(piece);
    text += &around("the independent implementation", independent, same);
    text += &around("what was proved", proved, same);
    text
}

fn around(who: &str, lines: &[String], at: usize) -> String {
    let mut text = format!("{who} answers, {} lines:\n", lines.len());
    for (k, line) in lines.iter().enumerate().skip(at.saturating_sub(2)).take(6) {
        writeln!(text, "  {} {k}: {line}", if k == at { ">" } else { " " }).unwrap();
    }
    text
}

/// A piece of input in document 01's words.
fn job(piece: &[u8]) -> String {
    let Some(job) = Job::decode(piece) else {
        return format!("a piece of {} bytes: {}\n", piece.len(), hex(piece));
    };
    let mut text = format!("job {}, bytes 4..7 hold {:#x}\n", job.job, job.word);
    for (k, meaning) in MEANINGS.iter().enumerate() {
        let field = job.fields[k];
        writeln!(
            text,
            "  field {}, {meaning}: {field:?} ({:016x})",
            k + 1,
            field.to_bits()
        )
        .unwrap();
    }
    let Job {
        t0,
        t1,
        step,
        question,
        ..
    } = job;
    writeln!(
        text,
        "  window {t0} to {t1}, step {step}, question {question}"
    )
    .unwrap();
    writeln!(text, "  bytes: {}", hex(piece)).unwrap();
    text
}

/// The records of a list or of the program's output, one a line.
pub fn records(bytes: &[u8]) -> Vec<String> {
    let record = |bytes| record(bytes, "intervals");
    bytes.chunks(INTERVAL).map(record).collect()
}

/// The records of a summary, one a line.
pub fn days(bytes: &[u8]) -> Vec<String> {
    bytes.chunks(TOTAL).map(day).collect()
}

/// An answer of the program `totals`: its head, and its summary.
pub fn totals(bytes: &[u8]) -> Vec<String> {
    let (head, summary) = bytes.split_at(bytes.len().min(INTERVAL));
    let mut lines = vec![record(head, "days")];
    lines.extend(days(summary));
    lines
}

fn day(bytes: &[u8]) -> String {
    let Some(Total {
        day,
        intervals,
        instants,
    }) = Total::decode(bytes)
    else {
        return format!("{} bytes: {}", bytes.len(), hex(bytes));
    };
    format!("day {day}: {intervals} intervals, {instants} instants")
}

/// `counted` is what a closing record or a head has the number of.
fn record(bytes: &[u8], counted: &str) -> String {
    let Some(Interval {
        job,
        flags,
        first,
        last,
    }) = Interval::decode(bytes)
    else {
        return format!("{} bytes: {}", bytes.len(), hex(bytes));
    };
    match flags {
        LISTED => format!("job {job}: {first} {counted}, {last} instants asked"),
        REFUSED..LISTED => format!(
            "job {job}: refusal {}, field {first}, last {last}",
            flags - REFUSED
        ),
        _ => format!("job {job}: from {first} to {last}, flags {flags}"),
    }
}

/// `counted` is what was written, in the answer's place for intervals.
pub fn answer(answer: &Answer, counted: &str) -> String {
    let Answer {
        refusal,
        field,
        number,
        intervals,
        asked,
    } = answer;
    let float = f64::from_bits(*number);
    format!("refusal {refusal}, field {field}, number {float:?} ({number:016x}); {intervals} {counted}, {asked} instants asked")
}

pub fn hex(bytes: &[u8]) -> String {
    bytes.iter().map(|byte| format!("{byte:02x}")).collect()
}
