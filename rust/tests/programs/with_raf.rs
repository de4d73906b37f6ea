//! The sample on files of the page of the crate `aegis`, under its name.

pub fn a_file_of_a_path(path: &std::path::Path) {
    use aegis::raf::{Aegis256, Raf};

    // Create a new encrypted file
    let master_key = [0u8; 32];
    let key = Raf::<Aegis256>::derive_master_key(&master_key, b"my-app/files").unwrap();
    let mut f = Raf::<Aegis256>::create_file(path, &key).unwrap();
    f.write(b"hello world", 0).unwrap();
    drop(f);

    // Open and read back
    let mut f = Raf::<Aegis256>::open_file(path, &key).unwrap();
    let mut buf = vec![0u8; 11];
    f.read(&mut buf, 0).unwrap();
    assert_eq!(&buf, b"hello world");
}
