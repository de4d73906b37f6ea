//! Files that are damaged. `testkit/corpus` has more of them, and journals that are damaged or of another file.

use crate::support::*;

/// Where the header ends, and the pages begin, each of 320 bytes.
const HEADER_END: usize = 113;
const FIRST_PAGE: usize = 4096;

/// A file of two pages and a short one, and its contents.
fn file() -> (Bytes, Vec<u8>) {
    let text = Random(2).bytes(600);
    (Disks::with(&text).bytes(), text)
}

fn with(bytes: &Bytes, change: impl FnOnce(&mut Bytes)) -> Bytes {
    let mut changed = bytes.clone();
    change(&mut changed);
    changed
}

/// A file whose header was changed is none, and a changed page is refused.
#[test]
fn each_changed_byte_of_a_file() {
    let (bytes, text) = file();
    for at in 0..bytes.0.len() {
        let disks = Disks::of(with(&bytes, |bytes| bytes.0[at] ^= 1 << (at % 8)));
        let before = disks.bytes();
        let opened = disks.open().and_then(|mut file| read(&mut file));
        match at {
            0..HEADER_END => assert_eq!((outcome(opened).as_str(), disks.bytes()), ("Header", before), "byte {at}"),
            HEADER_END..FIRST_PAGE => assert_eq!(opened.unwrap(), text, "byte {at}"),
            _ => assert_eq!(outcome(opened), format!("Damaged({})", (at - FIRST_PAGE) / 320), "byte {at}"),
        }
    }
}

/// A commit refuses a journal that is not empty.
#[test]
fn a_journal_that_is_written_by_another() {
    let (bytes, text) = file();
    let disks = Disks::of(bytes);
    let mut file = disks.open().unwrap();
    file.write(b"a", 0).unwrap();
    disks.journal.bytes.borrow_mut().push(1);
    for _ in 0..2 {
        assert_eq!(outcome(file.commit()), "Journal");
    }
    drop(file);
    assert_eq!((disks.bytes().1, disks.text()), (vec![1], text));
}

/// A write that cannot read a page changes nothing.
#[test]
fn a_write_over_a_damaged_page() {
    let (bytes, text) = file();
    let bytes = with(&bytes, |bytes| bytes.0[4096 + 320 * 2 + 50] ^= 1);
    let mut file = Disks::of(bytes).open().unwrap();
    assert_eq!(outcome(file.write(&[4; 300], 250)), "Damaged(2)");
    let mut buf = [0; 512];
    assert_eq!((file.read(&mut buf, 0).unwrap(), file.size()), (512, 600));
    assert_eq!(buf, text[..512]);
    // What is not kept is not read.
    file.write(&[4; 88], 512).unwrap();
    assert_eq!(text_of(&mut file), [&text[..512], &[4; 88]].concat());
}

/// A damaged page is refused as often as it is read, and leaves nothing of itself for the pages before it.
#[test]
fn a_damaged_page_between_others() {
    let (bytes, text) = file();
    let bytes = with(&bytes, |bytes| bytes.0[FIRST_PAGE + 320 + 50] ^= 1);
    let mut file = Disks::of(bytes).open().unwrap();
    let mut buf = [0; 10];
    for _ in 0..2 {
        assert_eq!(file.read(&mut buf, 0).unwrap(), 10);
        assert_eq!(buf, text[..10]);
        for _ in 0..2 {
            assert_eq!(outcome(file.read(&mut buf, 256)), "Damaged(1)");
        }
    }
}

#[test]
fn commitments() {
    let (bytes, _) = file();
    let disks = Disks::of(bytes.clone());
    let mut file = disks.open().unwrap();
    let first = file.commitment().unwrap();
    for at in 0..32 {
        let mut other = first;
        other[at] ^= 1;
        assert_eq!(outcome(file.verify(&other)), "Commitment");
    }
    // Changes in memory are none of it.
    file.write(b"new", 0).unwrap();
    file.verify(&first).unwrap();
    file.commit().unwrap();
    assert_eq!(outcome(file.verify(&first)), "Commitment");
    assert_ne!(file.commitment().unwrap(), first);
    // What is opened later has the commitment of the last of two commits.
    file.truncate(0).unwrap();
    file.commit().unwrap();
    let last = file.commitment().unwrap();
    drop(file);
    disks.open().unwrap().verify(&last).unwrap();
    Disks::of(bytes).open().unwrap().verify(&first).unwrap();
}
