//! The exports on the order of a commit and of a recovery.

const WRITE_BEGINNING: u32 = 1;
const WRITE_REST: u32 = 2;
const SYNC_JOURNAL: u32 = 3;
const REPLACE_JOURNAL: u32 = 4;
const MAKE_WRITE: u32 = 5;
const SYNC_FILE: u32 = 6;
const EMPTY_JOURNAL: u32 = 7;

/// A step of the first ones, of the writes, or of the last ones. After them it is 0: done.
fn step(first: &[u32], last: &[u32], number: u64, writes: u64, write: &mut u64) -> u32 {
    let at = |steps: &[u32], number: u64| usize::try_from(number).ok().and_then(|at| steps.get(at).copied());
    let after = number.saturating_sub(first.len() as u64);
    at(first, number).unwrap_or_else(|| {
        if after < writes {
            *write = after;
            return MAKE_WRITE;
        }
        at(last, after - writes).unwrap_or(0)
    })
}

#[unsafe(no_mangle)]
pub extern "C" fn hunkravy_proved_commit_step(number: u64, writes: u64, write: &mut u64) -> u32 {
    let first = [WRITE_BEGINNING, SYNC_JOURNAL, WRITE_REST, SYNC_JOURNAL];
    step(&first, &[SYNC_FILE, EMPTY_JOURNAL, SYNC_JOURNAL], number, writes, write)
}

#[unsafe(no_mangle)]
pub extern "C" fn hunkravy_proved_recovery_step(number: u64, writes: u64, write: &mut u64) -> u32 {
    let second = if writes == 0 { SYNC_JOURNAL } else { REPLACE_JOURNAL };
    let last = &[SYNC_FILE, EMPTY_JOURNAL, SYNC_JOURNAL][usize::from(writes == 0)..];
    step(&[SYNC_FILE, second], last, number, writes, write)
}
