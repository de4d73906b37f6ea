//! Record streams.

use crate::support::*;
use hunkravy::records::*;

const PREFIX: Prefix = [2; 24];

fn sealer() -> Sealer<'static> {
    Sealer::new(&key(), &PREFIX, CONTEXT).unwrap()
}

fn opener(header: &[u8]) -> Opener<'static> {
    Opener::new(&key(), &PREFIX, CONTEXT, header).unwrap()
}

fn opener_at(number: u64, before: u64) -> Result<Opener<'static>, Error> {
    Opener::begin_at(&key(), &PREFIX, CONTEXT, Position { number, before })
}

/// Each record opens at its position alone, and all that follow it.
#[test]
fn opened_at_each_position() {
    let stream = &sealed(&key(), &PREFIX, &MESSAGES)[24..];
    let mut whole = opener(&stream[..4]);
    let mut before = 0;
    for (number, message) in MESSAGES.iter().enumerate() {
        let position = whole.position();
        assert_eq!((position.number, position.before), (number as u64, before));
        let mut rest = &stream[position.offset() as usize..];
        check_wrong_positions(position, rest);
        let _ = whole.open_next(rest).unwrap();
        let mut opener = opener_at(position.number, before).unwrap();
        for expected in &MESSAGES[number..] {
            let opened = opener.open_next(rest).unwrap();
            assert_eq!(opened.message, *expected);
            rest = opened.rest;
        }
        assert_eq!(opener.finish(rest), Ok(()));
        before += message.len() as u64;
    }
}

fn check_wrong_positions(right: Position, bytes: &[u8]) {
    let Position { number, before } = right;
    for (number, before) in [
        (number + 1, before),
        (number ^ 1, before),
        (number, before + 1),
        (number, before ^ 1),
        (number + (1 << 40), before),
        (number, before + (1 << 40)),
    ] {
        let mut opener = opener_at(number, before).unwrap();
        assert_eq!(opener.open_next(bytes), Err(Error::Damaged(number)));
    }
}

/// The last record may start at the last place of the longest stream, and nothing after it.
#[test]
fn positions_at_the_end() {
    let most = hunkravy::MAX_AEAD_BYTES - 4;
    assert!(opener_at(0, most).is_ok());
    let too_far = Some(Error::StreamTooLong);
    assert_eq!(opener_at(0, most + 1).err(), too_far);
    assert_eq!(opener_at(u64::MAX, u64::MAX).err(), too_far);
    let mut opener = opener_at(0, most - 37).unwrap();
    assert_eq!(opener.open_next(&[0; 38]), Err(Error::Damaged(0)));
    let mut opener = opener_at(0, most - 36).unwrap();
    for _ in 0..2 {
        assert_eq!(opener.open_next(&[0; 38]), Err(Error::StreamTooLong));
    }
    let (number, before) = (u64::MAX, u64::MAX);
    assert_eq!(Position { number, before }.offset(), u64::MAX);
}

/// The longest message is sealed and opened. A longer one is not, and changes nothing: another can be the next or the last one.
/// After the last one there is none.
#[test]
fn the_longest_message() {
    let mut sealer = sealer();
    let mut stream = sealer.header().to_vec();
    let mut record = vec![7; RECORD_BYTES + MAX_MESSAGE_BYTES + 1];
    let message = vec![7; MAX_MESSAGE_BYTES + 1];
    let too_long = Err(Error::TooLong);
    assert_eq!(sealer.seal_next(&message, &mut stream), too_long);
    assert_eq!(sealer.seal_last(&message, &mut stream), too_long);
    assert_eq!(sealer.seal_next_in_place(&mut record), too_long);
    assert_eq!(sealer.seal_last_in_place(&mut record), too_long);
    assert!(stream == sealer.header() && record.iter().all(|byte| *byte == 7));
    sealer.seal_last(&message[1..], &mut stream).unwrap();

    let (length, mut record) = (stream.len(), [7; RECORD_BYTES]);
    let ended = Err(Error::Ended);
    assert_eq!(sealer.seal_next(b"more", &mut stream), ended);
    assert_eq!(sealer.seal_last(b"more", &mut stream), ended);
    assert_eq!(sealer.seal_next_in_place(&mut record), ended);
    assert_eq!((stream.len(), record), (length, [7; RECORD_BYTES]));
    let (header, bytes) = stream.split_at_mut(4);
    let mut opener = opener(header);
    let opened = opener.open_next_in_place(bytes).unwrap();
    assert!(opened.is_last && opened.rest.is_empty() && opened.message == &message[1..]);
}

#[test]
#[should_panic = "the record buffer is less than 37 bytes"]
fn a_record_without_room() {
    let _ = sealer().seal_next_in_place(&mut [0; 36]);
}

/// A context is part of the stream's authentication, and of any length up to the limit.
#[test]
fn contexts() {
    let contexts = [&[][..], &[0], &[0; 2], &[1; MAX_CONTEXT_BYTES]];
    for sealing in contexts {
        let mut sealer = Sealer::new(&key(), &PREFIX, sealing).unwrap();
        let mut stream = sealer.header().to_vec();
        sealer.seal_last(b"message", &mut stream).unwrap();
        for opening in contexts {
            let mut opener = Opener::new(&key(), &PREFIX, opening, &stream[..4]).unwrap();
            assert_eq!(opener.open_next(&stream[4..]).is_ok(), opening == sealing);
        }
    }
    let (key, too_long) = (key(), [0; MAX_CONTEXT_BYTES + 1]);
    let refused = [
        Sealer::new(&key, &PREFIX, &too_long).err(),
        Opener::new(&key, &PREFIX, &too_long, b"AGR2").err(),
        Opener::begin_at(&key, &PREFIX, &too_long, Position::default()).err(),
    ];
    assert_eq!(refused, [Some(Error::ContextTooLong); 3]);
}

/// A stream that was not opened to its end is not finished.
#[test]
fn unfinished() {
    let file = sealed(&key(), &PREFIX, &MESSAGES);
    let (header, records) = file[24..].split_at(4);
    let mut opener = opener(header);
    assert!(!opener.has_ended());
    let rest = opener.open_next(records).unwrap().rest;
    assert_eq!(opener.finish(rest), Err(Error::Truncated));
    for header in [&b""[..], b"AGR", b"AGR2\0", b"AGR1"] {
        assert_eq!(Opener::new(&key(), &PREFIX, CONTEXT, header).err(), Some(Error::Header));
    }
}

/// A stream that is moved, also to another thread, still has its context.
#[test]
fn moved_stream_keeps_its_context() {
    fn shared<T: Send + Sync>(value: T) -> T {
        value
    }
    let context = b"a context".to_vec();
    let sealer = Sealer::new(&key(), &PREFIX, &context).unwrap();
    let header = sealer.header();
    let mut sealer = Box::new(shared(sealer));
    let mut stream = Vec::new();
    std::thread::scope(|scope| {
        scope.spawn(|| sealer.seal_next(b"first", &mut stream).unwrap());
    });
    sealer.seal_last(b"last", &mut stream).unwrap();
    let mut openers = vec![Opener::new(&key(), &PREFIX, &context, &header).unwrap()];
    let rest = openers[0].open_next(&stream).unwrap().rest;
    let mut opener = shared(openers.remove(0));
    assert_eq!(opener.open_next(rest).unwrap().message, b"last");
    assert_eq!(format!("{opener:?}"), "Opener { .. }");
    assert_eq!(format!("{sealer:?}"), "Sealer { .. }");
}

/// Each error has its text, and is what an `io::Error` of it holds.
#[test]
fn errors() {
    let errors = [
        Error::Header,
        Error::Truncated,
        Error::Flag,
        Error::TooLong,
        Error::Damaged(70),
        Error::Trailing,
        Error::StreamTooLong,
        Error::ContextTooLong,
        Error::Ended,
        Error::OutOfMemory,
    ];
    let texts = "\
not a record stream: the header is wrong
the record stream is truncated
the first byte of a record is neither 0 nor 1
a message is longer than 16 MiB
record 70 is damaged, or the key, prefix or context is wrong
bytes follow the last record
the stream is longer than 2^61 - 1 bytes
the context is longer than 65,535 bytes
the last message of the record stream was sealed
out of memory";
    assert_eq!(errors.map(|error| error.to_string()).join("\n"), texts);
    for error in &errors[..9] {
        assert_eq!(fault_of(&(*error).into()), *error);
    }
    let source: Box<dyn std::error::Error + Send + Sync> = Error::Flag.into();
    assert!(source.source().is_none());
}
