//! Each statement drops what must be used. A lint finds no such function that takes a `&mut`, so these are compiled.

use aegis::{aegis256::Aegis256, raf};

pub fn unused(cipher: fn() -> Aegis256<16>, file: &mut raf::Raf<raf::Aegis256>) {
    cipher().encrypt_in_place(&mut [], b"");
    cipher().decryptor(b"", &mut []);
    file.cursor();
}
