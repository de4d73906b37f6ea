//! The bytes of files and journals that are written, which are those of the proved crate `aegis_pages`.

use crate::support::*;
use hunkravy::aegis128l::Aegis128LMac;
use hunkravy::aegis256::Aegis256Mac;
use hunkravy::raf::*;

/// A source of nonces that count up from this number, or of the id of a file and then of nonces from 0 on.
fn counter(first: Option<u64>) -> impl RafRng {
    let mut number = first.unwrap_or(0);
    Source::new(1, move |call, buf| {
        buf.fill(if first.is_none() && call == 0 { 9 } else { 0 });
        let is_id = buf[0] == 9;
        for nonce in buf.chunks_mut(32).filter(|_| !is_id) {
            nonce[..8].copy_from_slice(&number.to_le_bytes());
            number += 1;
        }
        Ok(())
    })
}

fn mac(bytes: &[u8]) -> [u8; 16] {
    let mut mac = Aegis256Mac::new(&KEY);
    mac.update(bytes);
    mac.finalize()
}

/// The file of 1,000 bytes of 5, in pages of 256 bytes.
fn small_file() -> Vec<u8> {
    let disks = Disks::new();
    let mut file = disks.builder().rng(counter(None)).create(disks.file.clone(), &KEY).unwrap();
    file.write(&[5; 1000], 0).unwrap();
    drop(file);
    disks.bytes().0
}

/// The proved crate writes the same file by the same nonces: its test `the_small_file` compares with this MAC too.
#[test]
fn the_small_file() {
    assert_eq!(mac(&small_file()), 0x425f54648db03d686f548f9cf1cdc2b9_u128.to_be_bytes());
}

/// A derived key is the MAC of a text of 24 bytes and of the context.
#[test]
fn derived_keys() {
    let text = b"hunkravy raf file key v1";
    for context in [&b"a context"[..], b"", &[1; 72]] {
        let mut mac = Aegis256Mac::<32>::new(&KEY);
        mac.update(&[text, context].concat());
        let key = mac.finalize();
        assert_eq!(derive_key(&KEY, context).unwrap(), key);
        assert_eq!(Raf::<Aegis256>::derive_master_key(&KEY, context).unwrap(), key);
        assert_eq!(Raf::<Aegis256X4>::derive_master_key(&KEY, context).unwrap(), key);
    }
    for context in [&b""[..], &[1; 120]] {
        let mut mac = Aegis128LMac::<16>::new(&[5; 16]);
        mac.update(&[text, context].concat());
        assert_eq!(derive_key(&[5; 16], context).unwrap(), mac.finalize());
    }
    assert_eq!(outcome(derive_key(&KEY, &[1; 73])), "ContextTooLong");
    assert_eq!(outcome(derive_key(&[5; 16], &[1; 121])), "ContextTooLong");
}

/// The proved crate writes the same journal by the same nonces, and then the same file: its test `a_commit_of_the_small_file`
/// compares with these MACs too.
#[test]
fn a_commit_of_the_small_file() {
    let disks = Disks::of((small_file(), Vec::new()));
    let mut file = disks.builder().rng(counter(Some(1 << 21))).open(disks.file.clone(), &KEY).unwrap();
    file.write(&[6; 1300], 0).unwrap();
    // All is done but to empty the journal.
    disks.leave(9);
    assert!(file.commit().is_err());
    let (changed, journal) = disks.bytes();
    assert_eq!(mac(&journal), 0x48971bac031d93fc7970a6c44381ef1e_u128.to_be_bytes());
    assert_eq!(mac(&changed), 0xc1c8c6485a0a2b1dfaade9c5f0f24ef1_u128.to_be_bytes());
}
