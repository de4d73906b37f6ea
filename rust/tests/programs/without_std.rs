//! A program that has no standard library: it brings what a program must have once, so it fails if the crate brings it too.

#![no_std]
use core::alloc::{GlobalAlloc, Layout};

struct None;

unsafe impl GlobalAlloc for None {
    unsafe fn alloc(&self, _layout: Layout) -> *mut u8 {
        core::ptr::null_mut()
    }
    unsafe fn dealloc(&self, _place: *mut u8, _layout: Layout) {}
}

#[global_allocator]
static NONE: None = None;

#[panic_handler]
fn panic(_info: &core::panic::PanicInfo) -> ! {
    loop {}
}

#[unsafe(no_mangle)]
pub extern "C" fn sealed(byte: &mut u8) -> u8 {
    let cipher = hunkravy::aegis256::Aegis256::<16>::new(&[1; 32], &[2; 32]);
    cipher.encrypt_in_place(core::slice::from_mut(byte), b"header")[0]
}

#[unsafe(no_mangle)]
pub extern "C" fn has_header() -> bool {
    hunkravy::records::Sealer::new(&[1; 32], &[2; 24], b"").is_ok()
}
