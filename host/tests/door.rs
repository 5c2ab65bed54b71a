//! The door and the independent implementation do the same: what is returned, the answer, and every
//! byte of the list that was lent, and around both.
#![cfg(door)]

mod common;

use common::door::{self, ANSWER};
use common::families::{test_each_family, Pieces};
use common::jobs::{self, put_field, LONGEST_LIST};
use common::random::Random;
use common::told;
use host::record::{Job, INTERVAL, ORBIT};
use host::Answer;

/// More than the longest list.
const ROOM: usize = LONGEST_LIST + INTERVAL;
/// Bytes before and behind what is lent, which are nobody's to write.
const MARGIN: usize = 48;

test_each_family!(agrees);

/// With room for any list, and with less.
fn agrees(name: &str, family: fn(&mut Random) -> Pieces) {
    let mut random = Random::of(name);
    for (number, piece) in family(&mut random).iter().enumerate() {
        let less = random.between(0, 100 * INTERVAL as u64) as usize;
        hold(&case(name, number, piece), ROOM, ANSWER);
        hold(&case(name, number, piece), less, ANSWER);
    }
}

/// What is there after a call: all the memory around what was lent, too.
#[derive(PartialEq)]
struct After {
    returned: u32,
    answer: Vec<u8>,
    list: Vec<u8>,
}

/// A different byte in each place of a record, to see what is written.
static UNWRITTEN: [u8; MARGIN + ROOM + MARGIN] = {
    let mut bytes = [0xA0; MARGIN + ROOM + MARGIN];
    let mut at = 0;
    while at < bytes.len() {
        bytes[at] += (at % INTERVAL) as u8;
        at += 1;
    }
    bytes
};

fn memory(lent: usize) -> Vec<u8> {
    UNWRITTEN[..MARGIN + lent + MARGIN].to_vec()
}

fn proved(record: &[u8], room: usize, answer_length: usize) -> After {
    let (mut list, mut answer) = (memory(room), memory(answer_length));
    let returned = door::list(
        record,
        &mut list[MARGIN..MARGIN + room],
        &mut answer[MARGIN..MARGIN + answer_length],
    );
    After {
        returned,
        answer,
        list,
    }
}

fn independent(record: &[u8], room: usize, answer_length: usize) -> After {
    let (mut list, mut answer) = (memory(room), memory(answer_length));
    if answer_length != ANSWER {
        return After {
            returned: 0,
            answer,
            list,
        };
    }
    let answered = host::list(record, &mut list[MARGIN..MARGIN + room]);
    answer[MARGIN..MARGIN + ANSWER].copy_from_slice(&door::encode(&answered));
    After {
        returned: 1,
        answer,
        list,
    }
}

fn case<'a>(family: &'a str, number: usize, piece: &'a [u8]) -> told::Case<'a> {
    told::Case {
        test: "door",
        family,
        number,
        piece,
    }
}

fn hold(case: &told::Case, room: usize, answer_length: usize) {
    let ours = independent(case.piece, room, answer_length);
    let theirs = proved(case.piece, room, answer_length);
    if ours != theirs {
        let told = told::disagreement(case, &ours.told(), &theirs.told());
        panic!("room {room}, {answer_length} bytes for the answer\n{told}");
    }
}

impl After {
    fn told(&self) -> Vec<String> {
        let answer = &self.answer[MARGIN..self.answer.len() - MARGIN];
        let mut lines = vec![format!("returned {}", self.returned)];
        let decoded = door::decode(answer).map(|answer| told::answer(&answer, "intervals"));
        lines.push(decoded.unwrap_or(told::hex(answer)));
        lines.push(format!("around the answer: {}", told::hex(&self.answer)));
        lines.extend(told::records(&self.list));
        lines
    }
}

/// The answer where the door is lent so much room.
fn answered(record: &[u8], room: usize) -> Answer {
    let mut answer = [0; ANSWER];
    assert_eq!(door::list(record, &mut vec![0; room], &mut answer), 1);
    door::decode(&answer).unwrap()
}

/// Every room from 0 to beyond the need, 24·ceil((n+1)/2) bytes for n steps: refusal 9 exactly
/// below it.
#[test]
fn every_room() {
    let mut random = Random::of("every_room");
    for steps in [1, 2, 3, 4, 12, 13, 199, 200] {
        let job = jobs::any(&mut random);
        let record = jobs::windowed(&mut random, job, steps, 1_000).encode();
        every_room_of(&record, INTERVAL * (steps as usize + 1).div_ceil(2));
    }
}

/// The longest list, which needs all of its room.
#[test]
fn every_room_of_the_longest_list() {
    let record = jobs::changing(1, 0.0, 30_000, 1).encode();
    every_room_of(&record, LONGEST_LIST);
}

fn every_room_of(record: &[u8], need: usize) {
    for room in 0..=need + INTERVAL {
        hold(&case("every_room", need, record), room, ANSWER);
        let refusal = answered(record, room).refusal;
        assert_eq!(
            refusal == 9,
            room < need,
            "refusal {refusal}; room {room} of {need}"
        );
    }
}

/// An answer of any length but 32 is not written, and nor is the list, whatever the job is.
#[test]
fn every_answer_length() {
    let mut random = Random::of("every_answer_length");
    let listed = jobs::changing(2, 0.0, 30_000, 1).encode();
    for length in 0..=64 {
        for piece in [listed, jobs::any(&mut random).encode(), [0; ORBIT]] {
            hold(&case("every_answer_length", length, &piece), ROOM, length);
            let returned = proved(&piece, ROOM, length).returned;
            assert_eq!(returned == 1, length == ANSWER, "{length} bytes");
        }
    }
}

/// A record of any length but 136 is refusal 1.
#[test]
fn every_record_length() {
    let records = [jobs::changing(1, 0.0, 30_000, 1).encode(); 3].concat();
    for length in 0..=300 {
        let piece = &records[..length];
        hold(&case("every_record_length", length, piece), ROOM, ANSWER);
        let answer = answered(piece, ROOM);
        assert_eq!(
            answer == Answer::refused(1, 0, 0),
            length != ORBIT,
            "{length} bytes: {answer:?}"
        );
    }
}

/// The answer to a record whose field k has these bits.
fn answered_with(job: Job, k: usize, bits: u64) -> Answer {
    let mut record = job.encode();
    put_field(&mut record, k, bits);
    answered(&record, ROOM)
}

/// A field's own bits come back, a NaN's with its sign and payload.
#[test]
fn the_bits_of_a_field_come_back() {
    const NOT_FINITE: [u64; 8] = [
        0x7FF8 << 48,
        0xFFF8 << 48,
        (0x7FF0 << 48) + 1,
        (0xFFF0 << 48) + 0xABCDE,
        u64::MAX,
        u64::MAX >> 1,
        f64::INFINITY.to_bits(),
        f64::NEG_INFINITY.to_bits(),
    ];
    let out_of_range = [f64::MAX, f64::MIN, -91.5].map(f64::to_bits);
    let job = jobs::any(&mut Random::of("the_bits_of_a_field_come_back"));
    for k in 1..=13 {
        let refusals = NOT_FINITE.map(|bits| (3, bits)).into_iter();
        for (refusal, bits) in refusals.chain(out_of_range.map(|bits| (4, bits))) {
            assert_eq!(
                answered_with(job, k, bits),
                Answer::refused(refusal, k as u32, bits)
            );
        }
    }
}

/// The closest distance comes back with refusal 5, each operation rounded once.
#[test]
fn the_distance_comes_back() {
    let mut random = Random::of("the_distance_comes_back");
    for _ in 0..100 {
        let job = jobs::slow(&mut random, 1);
        let distance = job.fields[0] * (1.0 - job.fields[1]);
        if distance <= 100_000.0 {
            let answer = answered_with(job, 7, 100_000.0f64.to_bits());
            assert_eq!(answer, Answer::refused(5, 0, distance.to_bits()));
        }
    }
}

/// The other refusals return 0.
#[test]
fn zero_comes_back() {
    let job = jobs::any(&mut Random::of("zero_comes_back"));
    let rows = [
        Job { word: 1, ..job },
        Job { t0: job.t1, ..job },
        Job { step: 0, ..job },
        Job { question: 0, ..job },
    ];
    for (row, refusal) in rows.iter().zip([2, 6, 7, 8]) {
        assert_eq!(
            answered(&row.encode(), ROOM),
            Answer::refused(refusal, 0, 0)
        );
    }
    assert_eq!(answered(&job.encode(), 0), Answer::refused(9, 0, 0));
}
