//! The samples of the page of the crate `aegis` that take no random bytes of the system, under its name.

pub fn a_source_of_random_bytes(path: &std::path::Path) {
    use aegis::raf::{Aegis128L, FileIo, RafBuilder};

    struct MyRng;

    impl aegis::raf::RafRng for MyRng {
        fn fill(&mut self, _buf: &mut [u8]) -> Result<(), aegis::raf::Error> {
            // fill buf with random bytes from your source
            Ok(())
        }
    }

    let io = FileIo::create(path).unwrap();
    let key = [0u8; 16];
    let mut f = RafBuilder::<Aegis128L>::with_rng(MyRng)
        .chunk_size(4096)
        .truncate(true)
        .create(io, &key)
        .unwrap();
    assert_eq!(f.write(b"hello", 0).unwrap(), 5);
}

pub fn keys() {
    use aegis::raf::{Aegis128L, Raf, derive_key};

    let master_key = [0u8; 16];
    let _key = Raf::<Aegis128L>::derive_master_key(&master_key, b"my-app/files").unwrap();
    let master_key = [0u8; 32];
    let _key = derive_key(&master_key, b"my-app/files").unwrap();
}

pub fn a_probe(path: &std::path::Path) -> String {
    use aegis::raf::{self, FileIo};

    let mut io = FileIo::open(path).unwrap();
    let info = raf::probe(&mut io).unwrap();
    format!(
        "algorithm: {:?}, chunk_size: {}, file_size: {}",
        info.algorithm, info.chunk_size, info.file_size
    )
}

pub fn a_storage(rng: impl aegis::raf::RafRng) {
    use aegis::raf::{Aegis256X2, RafBuilder, RafIo};

    struct Bytes;

    impl RafIo for Bytes {
        fn read_at(&mut self, _buf: &mut [u8], _offset: u64) -> std::io::Result<()> {
            Ok(())
        }
        fn write_at(&mut self, _buf: &[u8], _offset: u64) -> std::io::Result<()> {
            Ok(())
        }
        fn get_size(&mut self) -> std::io::Result<u64> {
            Ok(0)
        }
        fn set_size(&mut self, _size: u64) -> std::io::Result<()> {
            Ok(())
        }
    }

    let mut f = RafBuilder::<Aegis256X2>::with_rng(rng).create(Bytes, &[1; 32]).unwrap();
    f.sync().unwrap();
}
