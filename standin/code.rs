//! The codes that the exports return, and the checks of lengths.

pub const DONE: i32 = 0;
pub const INVALID_TAG: i32 = -1;
pub const WRONG_NONCE_LENGTH: i32 = -2;
pub const WRONG_KEY_LENGTH: i32 = -3;
pub const MESSAGE_TOO_LONG: i32 = -4;
pub const DATA_TOO_LONG: i32 = -5;
pub const WRONG_TAG_LENGTH: i32 = -6;
pub const WRONG_STATE: i32 = -7;
pub const WRONG_VARIANT: i32 = -8;
pub const CONTEXT_TOO_LONG: i32 = -9;
pub const UNKNOWN_HEADER: i32 = -10;
pub const WRONG_RECORD_LENGTH: i32 = -11;
pub const WRONG_PAGE_SIZE: i32 = -12;
pub const FILE_TOO_LONG: i32 = -13;
pub const WRONG_MESSAGE_LENGTH: i32 = -14;
pub const WRONG_JOURNAL: i32 = -15;
pub const NO_WRITE: i32 = -22;

/// A call's result: the error is one of the codes.
pub type Answer = Result<(), i32>;

/// The code of a result.
pub fn code(answer: Answer) -> i32 {
    answer.err().unwrap_or(DONE)
}

/// The result of a code.
pub fn result(code: i32) -> Answer {
    check(code == DONE, code)
}

/// Returns an error unless something holds.
pub fn check(holds: bool, code: i32) -> Answer {
    if holds { Ok(()) } else { Err(code) }
}

/// The limit on messages, on associated data, and on the input of a MAC: 2^61 - 1 bytes.
pub const MAX_BYTES: u64 = (1 << 61) - 1;

/// How many bytes a key and a nonce of a variant have, or 0 if there is no such variant.
pub fn key_bytes(variant: u32) -> usize {
    match variant {
        0..=2 => 16,
        3..=5 => 32,
        _ => 0,
    }
}

/// Checks a variant, and the length of a key.
pub fn check_key(variant: u32, key: usize) -> Answer {
    check(variant < 6, WRONG_VARIANT)?;
    check(key == key_bytes(variant), WRONG_KEY_LENGTH)
}

/// Checks a variant, and the lengths of a nonce and a key.
pub fn check_keys(variant: u32, nonce: usize, key: usize) -> Answer {
    check(variant < 6, WRONG_VARIANT)?;
    check(nonce == key_bytes(variant), WRONG_NONCE_LENGTH)?;
    check_key(variant, key)
}

/// Checks the length of a tag or of a MAC.
pub fn check_tag(bytes: usize) -> Answer {
    check(bytes == 16 || bytes == 32, WRONG_TAG_LENGTH)
}

/// Checks all lengths of a message.
pub fn check_lengths(variant: u32, nonce: usize, key: usize, message: usize, data: usize, tag: usize) -> Answer {
    check_keys(variant, nonce, key)?;
    check(message as u64 <= MAX_BYTES, MESSAGE_TOO_LONG)?;
    check(data as u64 <= MAX_BYTES, DATA_TOO_LONG)?;
    check_tag(tag)
}

/// Whether two tags are the same, in a time that does not depend on where they differ.
pub fn is_same(one: &[u8], other: &[u8]) -> bool {
    one.len() == other.len() && one.iter().zip(other).fold(0, |bits, (a, b)| bits | (a ^ b)) == 0
}
