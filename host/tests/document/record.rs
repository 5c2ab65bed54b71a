//! Document 01, What the desk feeds and gets: the two records; and document 02's, wish 3.

use crate::helpers::*;
use host::record::{Interval, Job, Total, INTERVAL, ORBIT, TOTAL};

#[test]
fn records_read_and_write_back() {
    let mut random = Random::of("records_read_and_write_back");
    for _ in 0..500 {
        let orbit = random.bytes(ORBIT);
        assert_eq!(Job::decode(&orbit).unwrap().encode()[..], orbit[..]);
        let bytes = random.bytes(INTERVAL);
        assert_eq!(Interval::decode(&bytes).unwrap().encode()[..], bytes[..]);
        let bytes = random.bytes(TOTAL);
        assert_eq!(Total::decode(&bytes).unwrap().encode()[..], bytes[..]);
    }
    for length in 0..200 {
        let bytes = vec![0; length];
        assert_eq!(Interval::decode(&bytes).is_some(), length == 24);
        assert_eq!(Total::decode(&bytes).is_some(), length == 16);
    }
}

#[test]
fn record_places() {
    let mut bytes = [0; ORBIT];
    bytes[0] = 1;
    bytes[7] = 2;
    bytes[8 + 8 * 12..][..8].copy_from_slice(&1.5f64.to_le_bytes());
    bytes[112] = 3;
    bytes[127] = 4;
    bytes[129] = 5;
    bytes[132] = 6;
    let job = Job::decode(&bytes).unwrap();
    assert_eq!((job.job, job.word, job.fields[12]), (1, 2 << 24, 1.5));
    assert_eq!((job.t0, job.t1), (3, 4 << 56));
    assert_eq!((job.step, job.question), (5 << 8, 6));
}

#[test]
fn total_places() {
    let mut bytes = [0; TOTAL];
    (bytes[3], bytes[4], bytes[15]) = (1, 2, 3);
    assert_eq!(Total::decode(&bytes), Some(total(1 << 24, 2, 3 << 56)));
}
