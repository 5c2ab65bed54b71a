//! The door: the proved library's functions as Rust calls them.

use host::Answer;

/// Bytes of an answer.
pub const ANSWER: usize = 32;

extern "C" {
    fn quechotzal_list(
        record: *const u8,
        record_length: usize,
        list: *mut u8,
        list_length: usize,
        answer: *mut u8,
        answer_length: usize,
    ) -> u32;

    fn quechotzal_days(
        record: *const u8,
        record_length: usize,
        list: *const u8,
        list_length: usize,
        out: *mut u8,
        out_length: usize,
        answer: *mut u8,
        answer_length: usize,
    ) -> u32;

    fn quechotzal_append(
        record: *const u8,
        record_length: usize,
        list: *const u8,
        list_length: usize,
        interval: *const u8,
        interval_length: usize,
        summary: *mut u8,
        summary_length: usize,
        answer: *mut u8,
        answer_length: usize,
    ) -> u32;
}

/// Writes the list and the answer, and says whether it did.
pub fn list(record: &[u8], list: &mut [u8], answer: &mut [u8]) -> u32 {
    // A slice's pointer is never null and good for its length; slices that are lent to be
    // written overlap no other.
    unsafe {
        quechotzal_list(
            record.as_ptr(),
            record.len(),
            list.as_mut_ptr(),
            list.len(),
            answer.as_mut_ptr(),
            answer.len(),
        )
    }
}

/// Writes the list's summary and the answer, and says whether it did.
pub fn days(record: &[u8], list: &[u8], summary: &mut [u8], answer: &mut [u8]) -> u32 {
    // As above.
    unsafe {
        quechotzal_days(
            record.as_ptr(),
            record.len(),
            list.as_ptr(),
            list.len(),
            summary.as_mut_ptr(),
            summary.len(),
            answer.as_mut_ptr(),
            answer.len(),
        )
    }
}

/// Writes the longer list's summary and the answer, and says whether it did.
pub fn append(
    record: &[u8],
    list: &[u8],
    interval: &[u8],
    summary: &mut [u8],
    answer: &mut [u8],
) -> u32 {
    // As above.
    unsafe {
        quechotzal_append(
            record.as_ptr(),
            record.len(),
            list.as_ptr(),
            list.len(),
            interval.as_ptr(),
            interval.len(),
            summary.as_mut_ptr(),
            summary.len(),
            answer.as_mut_ptr(),
            answer.len(),
        )
    }
}

/// The answer's 32 bytes.
pub fn encode(answer: &Answer) -> [u8; ANSWER] {
    let mut bytes = [0; ANSWER];
    bytes[0..4].copy_from_slice(&answer.refusal.to_le_bytes());
    bytes[4..8].copy_from_slice(&answer.field.to_le_bytes());
    bytes[8..16].copy_from_slice(&answer.number.to_le_bytes());
    bytes[16..24].copy_from_slice(&answer.intervals.to_le_bytes());
    bytes[24..32].copy_from_slice(&answer.asked.to_le_bytes());
    bytes
}

/// The answer in 32 bytes; any other length is none.
pub fn decode(bytes: &[u8]) -> Option<Answer> {
    let bytes: &[u8; ANSWER] = bytes.try_into().ok()?;
    let u32_at = |at: usize| u32::from_le_bytes(std::array::from_fn(|k| bytes[at + k]));
    let u64_at = |at: usize| u64::from_le_bytes(std::array::from_fn(|k| bytes[at + k]));
    Some(Answer {
        refusal: u32_at(0),
        field: u32_at(4),
        number: u64_at(8),
        intervals: u64_at(16),
        asked: u64_at(24),
    })
}
