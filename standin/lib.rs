//! A stand-in for the exports of `crates/aegis_c`, in plain Rust: the same calls, codes and bytes. Nothing of it is proved, and
//! it looks up tables by secret bytes. It is for tests alone.
//!
//! [`aegis`] has the ciphers, [`message`] the state of a message, and the other modules the exports by what they are on.
#![no_std]

mod aegis;
mod code;
mod journals;
mod message;
mod messages;
mod pages;
mod records;
mod round;
mod slices;
mod steps;

/// What nothing that is released may have: `tools/check_dist.sh` looks for these bytes. The linker drops what no function reads.
#[unsafe(no_mangle)]
#[allow(non_upper_case_globals)]
pub static hunkravy_proved_nothing: [u8; 39] = *b"a stand-in for hunkravy, with no proofs";

#[panic_handler]
fn panic(_: &core::panic::PanicInfo) -> ! {
    loop {}
}

/// What the precompiled `core` names for unwinding. Nothing here unwinds.
#[unsafe(no_mangle)]
extern "C" fn rust_eh_personality() {}
