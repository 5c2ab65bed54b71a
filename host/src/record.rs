//! Document 01, What the desk feeds and gets: the two records, little-endian; and
//! document 02, wish 3: a summary's.

/// Bytes of an orbit record.
pub const ORBIT: usize = 136;
/// Bytes of an interval record.
pub const INTERVAL: usize = 24;
/// Bytes of a summary's record.
pub const TOTAL: usize = 16;

/// An orbit record as plain numbers, not yet checked.
#[derive(Debug, Clone, Copy, PartialEq)]
pub struct Job {
    pub job: u32,
    /// Bytes 4..7, zero in an accepted record.
    pub word: u32,
    /// Field k is at place k − 1.
    pub fields: [f64; 13],
    pub t0: u64,
    pub t1: u64,
    pub step: u32,
    pub question: u32,
}

fn u32_at(bytes: &[u8], at: usize) -> u32 {
    u32::from_le_bytes(std::array::from_fn(|k| bytes[at + k]))
}

fn u64_at(bytes: &[u8], at: usize) -> u64 {
    u64::from_le_bytes(std::array::from_fn(|k| bytes[at + k]))
}

impl Job {
    /// The record's numbers, or nothing if the length isn't 136.
    pub fn decode(record: &[u8]) -> Option<Job> {
        if record.len() != ORBIT {
            return None;
        }
        Some(Job {
            job: u32_at(record, 0),
            word: u32_at(record, 4),
            fields: std::array::from_fn(|k| f64::from_bits(u64_at(record, 8 + 8 * k))),
            t0: u64_at(record, 112),
            t1: u64_at(record, 120),
            step: u32_at(record, 128),
            question: u32_at(record, 132),
        })
    }

    /// The 136 bytes that decode to these numbers.
    pub fn encode(&self) -> [u8; ORBIT] {
        let mut record = [0; ORBIT];
        record[0..4].copy_from_slice(&self.job.to_le_bytes());
        record[4..8].copy_from_slice(&self.word.to_le_bytes());
        for (k, field) in self.fields.iter().enumerate() {
            let at = 8 + 8 * k;
            record[at..at + 8].copy_from_slice(&field.to_bits().to_le_bytes());
        }
        record[112..120].copy_from_slice(&self.t0.to_le_bytes());
        record[120..128].copy_from_slice(&self.t1.to_le_bytes());
        record[128..132].copy_from_slice(&self.step.to_le_bytes());
        record[132..136].copy_from_slice(&self.question.to_le_bytes());
        record
    }
}

/// An interval record; the program's closing record has the same form.
#[derive(Debug, Clone, Copy, PartialEq, Eq)]
pub struct Interval {
    pub job: u32,
    pub flags: u32,
    pub first: u64,
    pub last: u64,
}

impl Interval {
    /// Any 24 bytes read as one record; any other length is no record.
    pub fn decode(record: &[u8]) -> Option<Interval> {
        if record.len() != INTERVAL {
            return None;
        }
        Some(Interval {
            job: u32_at(record, 0),
            flags: u32_at(record, 4),
            first: u64_at(record, 8),
            last: u64_at(record, 16),
        })
    }

    /// The 24 bytes that decode to this record.
    pub fn encode(&self) -> [u8; INTERVAL] {
        let mut record = [0; INTERVAL];
        record[0..4].copy_from_slice(&self.job.to_le_bytes());
        record[4..8].copy_from_slice(&self.flags.to_le_bytes());
        record[8..16].copy_from_slice(&self.first.to_le_bytes());
        record[16..24].copy_from_slice(&self.last.to_le_bytes());
        record
    }
}

/// Document 02, wish 3: one day's record of a summary.
#[derive(Debug, Clone, Copy, PartialEq, Eq)]
pub struct Total {
    pub day: u32,
    /// The intervals touching the day.
    pub intervals: u32,
    /// The instants in some interval and in the day.
    pub instants: u64,
}

impl Total {
    /// Any 16 bytes read as one record; any other length is no record.
    pub fn decode(record: &[u8]) -> Option<Total> {
        if record.len() != TOTAL {
            return None;
        }
        Some(Total {
            day: u32_at(record, 0),
            intervals: u32_at(record, 4),
            instants: u64_at(record, 8),
        })
    }

    /// The 16 bytes that decode to this record.
    pub fn encode(&self) -> [u8; TOTAL] {
        let mut record = [0; TOTAL];
        record[0..4].copy_from_slice(&self.day.to_le_bytes());
        record[4..8].copy_from_slice(&self.intervals.to_le_bytes());
        record[8..16].copy_from_slice(&self.instants.to_le_bytes());
        record
    }
}
