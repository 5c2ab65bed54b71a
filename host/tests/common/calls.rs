//! Calls of the door for totals by day, done by both sides.

use super::door::{self, ANSWER};
use super::lists::{self, LONGEST_SUMMARY};
use super::told;
use host::record::TOTAL;
use host::Answer;

/// Bytes before and behind what is lent, which are nobody's to write.
const MARGIN: usize = 48;
/// More than the longest summary.
pub const ROOM: usize = LONGEST_SUMMARY + TOTAL;

/// What a call is given.
#[derive(Clone, Copy)]
pub struct Call<'a> {
    pub record: &'a [u8],
    pub list: &'a [u8],
    /// What is appended to the list; none where the list is added up.
    pub interval: Option<&'a [u8]>,
    /// The summary that is lent.
    pub lent: &'a [u8],
    pub answer_length: usize,
}

pub fn summing<'a>(record: &'a [u8], list: &'a [u8], lent: &'a [u8]) -> Call<'a> {
    Call {
        record,
        list,
        interval: None,
        lent,
        answer_length: ANSWER,
    }
}

pub fn appending<'a>(
    record: &'a [u8],
    list: &'a [u8],
    interval: &'a [u8],
    lent: &'a [u8],
) -> Call<'a> {
    Call {
        interval: Some(interval),
        ..summing(record, list, lent)
    }
}

/// A different byte in each place of a record, to see what is written.
pub fn unwritten(length: usize) -> Vec<u8> {
    (0..length).map(|at| 0xA0 + (at % TOTAL) as u8).collect()
}

/// The list's summary and what else there is room for; all of it unwritten where there is none.
pub fn lent(record: &[u8], list: &[u8]) -> Vec<u8> {
    let summary = lists::summary(record, list);
    [&summary, &unwritten(ROOM)[summary.len()..]].concat()
}

/// What is there after a call: all the memory around what was lent, too.
#[derive(PartialEq)]
pub struct After {
    pub returned: u32,
    answer: Vec<u8>,
    summary: Vec<u8>,
}

/// One side: writes the summary and the answer, and says whether it did.
type Side = fn(&Call, &mut [u8], &mut [u8]) -> u32;

fn after(call: &Call, side: Side) -> After {
    let margin = unwritten(MARGIN);
    let mut summary = [&margin, call.lent, &margin].concat();
    let mut answer = unwritten(MARGIN + call.answer_length + MARGIN);
    let returned = side(
        call,
        &mut summary[MARGIN..][..call.lent.len()],
        &mut answer[MARGIN..][..call.answer_length],
    );
    After {
        returned,
        answer,
        summary,
    }
}

fn proved(call: &Call, summary: &mut [u8], answer: &mut [u8]) -> u32 {
    match call.interval {
        None => door::days(call.record, call.list, summary, answer),
        Some(interval) => door::append(call.record, call.list, interval, summary, answer),
    }
}

fn independent(call: &Call, summary: &mut [u8], answer: &mut [u8]) -> u32 {
    if answer.len() != ANSWER {
        return 0;
    }
    let answered = match call.interval {
        None => host::days(call.record, call.list, summary),
        Some(interval) => host::append(call.record, call.list, interval, summary),
    };
    answer.copy_from_slice(&door::encode(&answered));
    1
}

/// Both do the same; what is there after the door's call.
pub fn hold_any(name: &str, number: usize, call: &Call) -> After {
    let ours = after(call, independent);
    let theirs = after(call, proved);
    if ours != theirs {
        let case = told::Case {
            test: "days_door",
            family: name,
            number,
            piece: call.record,
        };
        let told = told::disagreement(&case, &ours.told(), &theirs.told());
        panic!("{}\n{told}", call.told());
    }
    theirs
}

/// Both do the same; what the door answers.
pub fn hold(name: &str, number: usize, call: &Call) -> Answer {
    let answer = hold_any(name, number, call).answer;
    door::decode(&answer[MARGIN..][..ANSWER]).unwrap()
}

impl After {
    fn told(&self) -> Vec<String> {
        let answer = &self.answer[MARGIN..self.answer.len() - MARGIN];
        let mut lines = vec![format!("returned {}", self.returned)];
        let decoded = door::decode(answer).map(|answer| told::answer(&answer, "days"));
        lines.push(decoded.unwrap_or(told::hex(answer)));
        lines.push(format!("around the answer: {}", told::hex(&self.answer)));
        lines.extend(told::days(&self.summary));
        lines
    }
}

impl Call<'_> {
    fn told(&self) -> String {
        let mut lines = vec![format!("list of {} bytes, from:", self.list.len())];
        lines.extend(told::records(self.list).into_iter().take(40));
        if let Some(interval) = self.interval {
            lines.push(format!("to append, {} bytes:", interval.len()));
            lines.extend(told::records(interval));
        }
        lines.push(format!(
            "{} bytes lent, {} for the answer:",
            self.lent.len(),
            self.answer_length
        ));
        lines.extend(told::days(self.lent));
        lines.join("\n")
    }
}
