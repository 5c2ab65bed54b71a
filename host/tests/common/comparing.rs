//! The programs' output held against the independent implementation's answers.

use super::told;
use host::program::{LISTED, REFUSED};
use host::record::{Interval, INTERVAL, TOTAL};

/// A program, and how its output is read.
pub struct Program {
    pub name: &'static str,
    /// What the independent implementation writes for a whole input.
    pub independent: fn(&[u8]) -> Vec<u8>,
    /// The answer that an output begins with, or all that there is.
    first_answer: fn(&[u8]) -> &[u8],
    /// An answer, line by line.
    told: fn(&[u8]) -> Vec<String>,
}

pub const LISTS: Program = Program {
    name: "lists",
    independent: host::program,
    first_answer: to_closing,
    told: told::records,
};

pub const TOTALS: Program = Program {
    name: "totals",
    independent: host::totals,
    first_answer: head_and_days,
    told: told::totals,
};

/// The first piece whose answers differ; one behind the last where the output goes on.
#[derive(Debug, PartialEq)]
pub struct Difference {
    pub case: usize,
    pub independent: Vec<u8>,
    pub proved: Vec<u8>,
}

impl Program {
    /// The independent implementation's answer to each piece.
    pub fn answers(&self, pieces: &[Vec<u8>]) -> Vec<Vec<u8>> {
        let answer = |piece: &Vec<u8>| (self.independent)(piece);
        pieces.iter().map(answer).collect()
    }

    /// `independent` has the answer to each piece; `output` is the program's to all of them.
    pub fn first_difference(&self, independent: &[Vec<u8>], output: &[u8]) -> Option<Difference> {
        let mut rest = output;
        for (case, answer) in independent.iter().enumerate() {
            if !rest.starts_with(answer) {
                let proved = (self.first_answer)(rest);
                let (independent, proved) = (answer.clone(), proved.to_vec());
                return Some(Difference {
                    case,
                    independent,
                    proved,
                });
            }
            rest = &rest[answer.len()..];
        }
        let more = Difference {
            case: independent.len(),
            independent: vec![],
            proved: rest.to_vec(),
        };
        (!rest.is_empty()).then_some(more)
    }

    pub fn told(&self, difference: &Difference, family: &str, pieces: &[Vec<u8>]) -> String {
        let Difference {
            case,
            independent,
            proved,
        } = difference;
        let piece = pieces.get(*case).map_or(&[][..], |piece| piece);
        let case = told::Case {
            test: "program",
            family: &format!("{}::{family}", self.name),
            number: *case,
            piece,
        };
        told::disagreement(&case, &(self.told)(independent), &(self.told)(proved))
    }
}

/// The records up to the first closing one.
fn to_closing(output: &[u8]) -> &[u8] {
    let closing = |record: &[u8]| Interval::decode(record).is_some_and(|r| r.flags >= REFUSED);
    match output.chunks(INTERVAL).position(closing) {
        Some(k) => &output[..INTERVAL * (k + 1)],
        None => output,
    }
}

/// The head, and as many days as it says.
fn head_and_days(output: &[u8]) -> &[u8] {
    let head = output.get(..INTERVAL).and_then(Interval::decode);
    let days = match head {
        Some(head) if head.flags == LISTED => head.first.min(output.len() as u64) as usize,
        _ => 0,
    };
    &output[..output.len().min(INTERVAL + TOTAL * days)]
}
