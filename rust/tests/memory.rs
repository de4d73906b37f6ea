//! How much memory a file takes, and what is left in memory that was freed, as an allocator sees it. Both are one test,
//! since they count all of the program.

use hunkravy::files::{SealedReader, SealedWriter, read_key};
use hunkravy::raf::{Aegis256, Raf, RafBuilder};
use hunkravy::records::Sealer;
use std::alloc::{GlobalAlloc, Layout, System};
use std::fs::{self, File};
use std::io::{ErrorKind, Read, Seek, SeekFrom, Write};
use std::path::Path;
use std::slice;
use std::sync::atomic::{AtomicBool, AtomicUsize, Ordering::SeqCst};

/// The lengths of a page's text, of a page, and of a record of a whole piece.
const CHUNK_BYTES: usize = 1009;
const PAGE_BYTES: usize = 32 + CHUNK_BYTES + 32;
const RECORD_BYTES: usize = 65_536 + 37;
/// Longer and longer messages, and how much memory is taken for their records, in steps.
const MESSAGES: [usize; 3] = [1100, 200_000, 500_000];
const GROWN: [usize; 5] = [1137, 2 * RECORD_BYTES, 200_037, 2 * 200_037, 500_037];

/// Whether all memory is looked at that is freed.
static LOOKS_AT_ALL: AtomicBool = AtomicBool::new(false);

/// Whether an allocation is that of a text. No others of the program have these lengths.
fn is_of_text(layout: Layout) -> bool {
    let lengths = [CHUNK_BYTES, PAGE_BYTES, READ_BYTES, RECORD_BYTES];
    let is_one = lengths.contains(&layout.size()) || GROWN.contains(&layout.size());
    LOOKS_AT_ALL.load(SeqCst) || (layout.align() == 1 && is_one)
}
const LIMIT: usize = 1 << 20;
/// What is read in one call, in whole pages.
const READ_BYTES: usize = 64 * 1024 / PAGE_BYTES * PAGE_BYTES;
/// A text is of this byte, in which a freed page is recognized.
const MARK: u8 = 0xc7;
/// A part of a key file with a key of this byte.
const DIGITS: [u8; 8] = *b"c7c7c7c7";

static NOW: AtomicUsize = AtomicUsize::new(0);
static MOST: AtomicUsize = AtomicUsize::new(0);
static FREED: AtomicUsize = AtomicUsize::new(0);
static UNWIPED: AtomicUsize = AtomicUsize::new(0);

struct Counting;

// SAFETY: it is the system's allocator, which is called with the same arguments.
unsafe impl GlobalAlloc for Counting {
    unsafe fn alloc(&self, layout: Layout) -> *mut u8 {
        MOST.fetch_max(NOW.fetch_add(layout.size(), SeqCst) + layout.size(), SeqCst);
        // SAFETY: as above.
        unsafe { System.alloc(layout) }
    }

    unsafe fn dealloc(&self, place: *mut u8, layout: Layout) {
        NOW.fetch_sub(layout.size(), SeqCst);
        if is_of_text(layout) {
            // SAFETY: it is not freed yet, and each of its bytes was written.
            let bytes = unsafe { slice::from_raw_parts(place, layout.size()) };
            FREED.fetch_add(1, SeqCst);
            let is_mark = |bytes: &[u8]| bytes == [MARK; 8] || bytes == DIGITS;
            UNWIPED.fetch_add(usize::from(bytes.windows(8).any(is_mark)), SeqCst);
        }
        // SAFETY: as above.
        unsafe { System.dealloc(place, layout) }
    }
}

#[global_allocator]
static COUNTING: Counting = Counting;

/// Returns the most memory that was taken while this was done, beside what was taken before.
fn most_of(done: impl FnOnce()) -> usize {
    let before = NOW.load(SeqCst);
    MOST.store(before, SeqCst);
    done();
    MOST.load(SeqCst) - before
}

/// Writes twelve times the limit in all, in single writes of a tenth of it.
fn write(path: &Path) {
    let part = vec![MARK; LIMIT / 10];
    let builder = RafBuilder::<Aegis256>::new();
    let builder = builder.chunk_size(CHUNK_BYTES as u32).buffer_limit(LIMIT);
    let mut file = builder.create_file(path, &[7; 32]).unwrap();
    for number in 0..120 {
        file.write(&part, number % 37 * 100_003).unwrap();
    }
}

/// Reads all of the text through a small buffer.
fn read(path: &Path) {
    let mut file = Raf::<Aegis256>::open_file(path, &[7; 32]).unwrap();
    let mut buffer = [0; 1000];
    let counts = (0..file.size()).step_by(buffer.len()).map(|at| file.read(&mut buffer, at).unwrap());
    assert!(counts.sum::<usize>() > 3_000_000);
}

/// Writes 20 pieces and a part of one.
fn seal(path: &Path) {
    let mut writer = SealedWriter::new(File::create(path).unwrap(), &[7; 32]).unwrap();
    for _ in 0..1250 {
        writer.write_all(&[MARK; 1100]).unwrap();
    }
    writer.finish().unwrap();
    // One that is dropped leaves nothing either.
    let mut writer = SealedWriter::new(std::io::sink(), &[7; 32]).unwrap();
    writer.write_all(&[MARK; 1100]).unwrap();
}

/// Reads all of it, and a part of it.
fn unseal(path: &Path) {
    let mut reader = SealedReader::new(File::open(path).unwrap(), &[7; 32]);
    assert_eq!(std::io::copy(&mut reader, &mut std::io::sink()).unwrap(), 1250 * 1100);
    let mut buffer = [0; 1000];
    reader.seek(SeekFrom::Start(100_000)).unwrap();
    reader.read_exact(&mut buffer).unwrap();
    assert_eq!(buffer, [MARK; 1000]);
}

/// The beginning of a sealed file, and what seals its records.
fn begun() -> (Sealer<'static>, Vec<u8>) {
    let sealer = Sealer::new(&[7; 32], &[1; 24], b"hunkravy v1").unwrap();
    let file = [&[1; 24][..], &sealer.header()].concat();
    (sealer, file)
}

/// A file of a record that is announced as the longest one, of which so many bytes are there.
fn announced(path: &Path, count: usize) {
    let (_, mut file) = begun();
    file.extend([0, 0, 0, 0, 1]);
    file.resize(file.len() + count, 0);
    fs::write(path, file).unwrap();
}

fn read_announced(path: &Path) {
    let mut reader = SealedReader::new(File::open(path).unwrap(), &[7; 32]);
    assert_eq!(reader.read(&mut [0; 10]).unwrap_err().kind(), ErrorKind::InvalidData);
}

/// Reads longer and longer records.
fn longer_records() {
    let (mut sealer, mut file) = begun();
    for length in MESSAGES {
        sealer.seal_next(&vec![MARK; length], &mut file).unwrap();
    }
    sealer.seal_last(&[], &mut file).unwrap();
    let freed = FREED.load(SeqCst);
    let mut reader = SealedReader::new(&file[..], &[7; 32]);
    assert_eq!(std::io::copy(&mut reader, &mut std::io::sink()).unwrap(), 701_100);
    drop(reader);
    assert_eq!(FREED.load(SeqCst) - freed, GROWN.len() + 1);
}

/// Seals a message into a vector that has to grow for it, from no room to nearly enough: no memory that it frees holds a part of
/// the message.
fn sealed_into_short_vectors() {
    const MESSAGE: [u8; 1100] = [MARK; 1100];
    for room in (0..1200).step_by(50) {
        let mut sealer = Sealer::new(&[7; 32], &[1; 24], b"").unwrap();
        let mut stream = Vec::with_capacity(room);
        LOOKS_AT_ALL.store(true, SeqCst);
        sealer.seal_next(&MESSAGE, &mut stream).unwrap();
        sealer.seal_last(&MESSAGE, &mut stream).unwrap();
        LOOKS_AT_ALL.store(false, SeqCst);
        assert_eq!(stream.len(), 2 * 1137);
    }
    assert_eq!(UNWIPED.load(SeqCst), 0);
}

/// Reads a key file: no memory that this frees holds its digits.
fn key_file(path: &Path) {
    fs::write(path, DIGITS.repeat(8)).unwrap();
    LOOKS_AT_ALL.store(true, SeqCst);
    let key = read_key(path).unwrap();
    LOOKS_AT_ALL.store(false, SeqCst);
    assert_eq!((key, UNWIPED.load(SeqCst)), ([MARK; 32], 0));
}

/// A reader of bytes that then returns counts of bytes which it does not write.
struct Lies<'a>(&'a [u8]);

impl Read for Lies<'_> {
    fn read(&mut self, buf: &mut [u8]) -> std::io::Result<usize> {
        let count = self.0.read(buf)?;
        Ok(if count > 0 { count } else { buf.len() })
    }
}

/// Reads a record and the head of a longer one, whose other bytes are not written.
fn record_of_lies() {
    let (mut sealer, mut file) = begun();
    sealer.seal_next(&[MARK; 1100], &mut file).unwrap();
    file.push(0);
    file.extend(200_000_u32.to_le_bytes());
    let mut reader = SealedReader::new(Lies(&file), &[7; 32]);
    assert_eq!(std::io::copy(&mut reader, &mut std::io::sink()).unwrap_err().kind(), ErrorKind::InvalidData);
}

/// A sealed file takes a record and what is constant. A record that is announced takes no more than twice what is there of
/// it.
fn of_a_sealed_file(path: &Path) {
    for done in [seal, unseal] {
        let most = most_of(|| done(path));
        let expected = RECORD_BYTES..RECORD_BYTES + 5_000;
        assert!(expected.contains(&most), "{most}");
    }
    for count in [0, 100, 100_000, 1_000_000] {
        announced(path, count);
        let most = most_of(|| read_announced(path));
        assert!(most < RECORD_BYTES + 3 * count + 5_000, "{most} of {count}");
    }
    sealed_into_short_vectors();
    key_file(path);
    longer_records();
    record_of_lies();
    fs::remove_file(path).unwrap();
}

/// A file takes the limit and a write over it, also in a commit; one that is read takes the bytes of one call. What is constant
/// is added. No page and no record that was freed has any of the text left.
#[test]
fn memory_of_files_is_limited_and_wiped() {
    let path = std::env::temp_dir().join(format!("hunkravy-memory-{}", std::process::id()));
    let changes = LIMIT + LIMIT / 10 + 2 * CHUNK_BYTES;
    // Beside a page of the text: its place in a map or a list.
    let pages = changes.div_ceil(CHUNK_BYTES) * (CHUNK_BYTES + 240);
    // And what a commit gathers for one call.
    let most = pages + LIMIT / 10 + READ_BYTES + 256 * 1024 + 20_000;
    let written = most_of(|| write(&path));
    assert!(written > LIMIT && written < most, "{written} of {most}");
    let read = most_of(|| read(&path));
    assert!(read > PAGE_BYTES && read < READ_BYTES + 20_000, "{read}");
    fs::remove_file(&path).unwrap();
    of_a_sealed_file(&path);
    assert!(FREED.load(SeqCst) > 10_000, "{FREED:?}");
    assert_eq!(UNWIPED.load(SeqCst), 0);
}
