//! The stored lines of `crates/test_agreement/data`, each through every call of the crate that gives its answer.

use hunkravy::{Cipher, ERASED, Error, Mac, Variant, variants};
use std::fs;
use std::path::Path;

/// Lengths that messages are cut into, beside their own pieces.
const CUTS: [usize; 6] = [1, 7, 16, 33, 128, 200];
/// What stands in a destination before a call, and after it in front of which nothing was written.
const UNWRITTEN: u8 = 0x55;
/// How many bytes a destination has after its message.
const ROOM: usize = 5;

/// The pieces of a field.
fn pieces(field: &str) -> Vec<Vec<u8>> {
    field.split(',').map(bytes).collect()
}

/// The bytes of a field, or of a piece.
fn bytes(field: &str) -> Vec<u8> {
    if field == "-" {
        return Vec::new();
    }
    let byte = |place| u8::from_str_radix(&field[place..place + 2], 16).expect("digits");
    (0..field.len()).step_by(2).map(byte).collect()
}

/// The field that stands for bytes in an answer.
fn field(bytes: &[u8]) -> String {
    if bytes.is_empty() {
        return "-".to_owned();
    }
    let digits: Vec<String> = bytes.iter().map(|byte| format!("{byte:02x}")).collect();
    digits.concat()
}

/// The key or the nonce of a field.
fn array<T: Default + AsMut<[u8]>>(field: &str) -> T {
    let mut array = T::default();
    array.as_mut().copy_from_slice(&bytes(field));
    array
}

/// A message as its own pieces, and cut into pieces of other lengths.
fn cuts(field: &str) -> Vec<Vec<Vec<u8>>> {
    let own = pieces(field);
    let message = own.concat();
    let others = CUTS.map(|length| message.chunks(length).map(<[u8]>::to_vec).collect());
    [own].into_iter().chain(others).collect()
}

/// A key, a nonce and associated data, for a cipher a call.
struct Keys<'a> {
    key: &'a str,
    nonce: &'a str,
    ad: Vec<u8>,
}

impl Keys<'_> {
    fn cipher<V: Variant, const TAG_BYTES: usize>(&self) -> Cipher<V, TAG_BYTES> {
        Cipher::new(&array(self.key), &array(self.nonce))
    }
}

fn seal<V: Variant, const TAG_BYTES: usize>(keys: &Keys, message: &str) -> String {
    let joined = pieces(message).concat();
    let (ciphertext, tag) = keys.cipher::<V, TAG_BYTES>().encrypt(&joined, &keys.ad);

    let mut mc = joined.clone();
    let in_place = keys.cipher::<V, TAG_BYTES>();
    assert_eq!(in_place.encrypt_in_place(&mut mc, &keys.ad), tag);
    assert_eq!(mc, ciphertext);

    for mut chunks in cuts(message) {
        let cipher = keys.cipher::<V, TAG_BYTES>();
        let mut copying = cipher.encryptor(&keys.ad);
        let mut in_place = cipher.encryptor(&keys.ad);
        for chunk in &mut chunks {
            let mut sealed = vec![UNWRITTEN; chunk.len()];
            copying.update(chunk, &mut sealed);
            in_place.update_in_place(chunk);
            assert_eq!(*chunk, sealed);
        }
        assert_eq!(chunks.concat(), ciphertext);
        assert_eq!((copying.finalize(), in_place.finalize()), (tag, tag));
    }
    format!("{} {}", field(&ciphertext), field(&tag))
}

fn open<V: Variant, const TAG_BYTES: usize>(keys: &Keys, ciphertext: &str, tag: &str) -> String {
    let joined = pieces(ciphertext).concat();
    let tag = bytes(tag).try_into().expect("a tag of that length");
    let cipher = keys.cipher::<V, TAG_BYTES>();
    let opened = cipher.decrypt(&joined, &tag, &keys.ad);

    let mut mc = joined.clone();
    let in_place = keys.cipher::<V, TAG_BYTES>();
    let answer = in_place.decrypt_in_place(&mut mc, &tag, &keys.ad);
    assert_eq!(answer, opened.as_ref().map(|_| ()).map_err(|error| *error));
    assert_eq!(mc, *opened.as_ref().unwrap_or(&vec![ERASED; joined.len()]));

    for chunks in cuts(ciphertext) {
        let mut buffer = vec![UNWRITTEN; joined.len() + ROOM];
        let cipher = keys.cipher::<V, TAG_BYTES>();
        let mut decryptor = cipher.decryptor(&keys.ad, &mut buffer);
        for chunk in &chunks {
            decryptor.update(chunk).expect("there is room");
        }
        let in_chunks = decryptor.finalize(&tag).map(|message| message.to_vec());
        assert_eq!(in_chunks, opened);
        assert_eq!(buffer.split_off(joined.len()), [UNWRITTEN; ROOM]);
        assert_eq!(buffer, *opened.as_ref().unwrap_or(&vec![0; joined.len()]));
    }
    match opened {
        Ok(message) => format!("ok {}", field(&message)),
        Err(error) => {
            assert_eq!(error, Error::InvalidTag);
            "invalid tag".to_owned()
        }
    }
}

fn stream<V: Variant, const TAG_BYTES: usize>(keys: &Keys, length: &str) -> String {
    let mut out = vec![UNWRITTEN; length.parse().expect("a length")];
    keys.cipher::<V, TAG_BYTES>().stream(&mut out);
    assert_eq!(keys.cipher::<V, TAG_BYTES>().stream_xor(&vec![0; out.len()]), out);
    field(&out)
}

fn xor<V: Variant, const TAG_BYTES: usize>(keys: &Keys, message: &str) -> String {
    let mut mc = bytes(message);
    let xored = keys.cipher::<V, TAG_BYTES>().stream_xor(&mc);
    keys.cipher::<V, TAG_BYTES>().stream_xor_in_place(&mut mc);
    assert_eq!(mc, xored);
    field(&mc)
}

fn mac<V: Variant, const TAG_BYTES: usize>(keys: &Keys, input: &str) -> String {
    let key: V::Key = array(keys.key);
    let nonce: V::Nonce = array(keys.nonce);
    let input_bytes = pieces(input).concat();
    let empty = Mac::<V, TAG_BYTES>::new_with_nonce(&key, &nonce);
    let mut at_once = empty.clone();
    at_once.update(&input_bytes);
    let tag = at_once.finalize();
    for chunks in cuts(input) {
        let mut mac = empty.clone();
        for chunk in &chunks {
            mac.update(chunk);
        }
        let mut changed = tag;
        changed[TAG_BYTES - 1] ^= 1;
        assert_eq!(mac.clone().verify(&changed), Err(Error::InvalidTag));
        assert_eq!(mac.clone().verify(&tag), Ok(()));
        assert_eq!(mac.finalize(), tag);
    }
    if nonce.as_ref().iter().all(|byte| *byte == 0) {
        let mut without = Mac::<V, TAG_BYTES>::new(&key);
        without.update(&input_bytes);
        assert_eq!(without.finalize(), tag);
    }
    field(&tag)
}

fn answer<V: Variant, const TAG_BYTES: usize>(fields: &[&str]) -> String {
    let keys = |key, nonce, ad| {
        let ad = bytes(ad);
        Keys { key, nonce, ad }
    };
    match *fields {
        ["seal", _, _, k, n, ad, message] => seal::<V, TAG_BYTES>(&keys(k, n, ad), message),
        ["open", _, _, k, n, ad, c, tag] => open::<V, TAG_BYTES>(&keys(k, n, ad), c, tag),
        ["stream", _, k, n, length] => stream::<V, TAG_BYTES>(&keys(k, n, "-"), length),
        ["xor", _, k, n, message] => xor::<V, TAG_BYTES>(&keys(k, n, "-"), message),
        ["mac", _, _, k, n, input] => mac::<V, TAG_BYTES>(&keys(k, n, "-"), input),
        _ => panic!("no call gives the answer to {fields:?}"),
    }
}

/// The answer to a line of a variant. The tag length of a keystream makes no difference, so both are tried.
fn answer_of<V: Variant>(fields: &[&str]) -> String {
    if matches!(fields[0], "stream" | "xor") {
        assert_eq!(answer::<V, 16>(fields), answer::<V, 32>(fields));
    }
    match fields[2] {
        "32" => answer::<V, 32>(fields),
        _ => answer::<V, 16>(fields),
    }
}

fn line_answer(line: &str) -> String {
    let fields: Vec<&str> = line.split(' ').collect();
    let answer = match fields[1] {
        "aegis128l" => answer_of::<variants::Aegis128L>,
        "aegis128x2" => answer_of::<variants::Aegis128X2>,
        "aegis128x4" => answer_of::<variants::Aegis128X4>,
        "aegis256" => answer_of::<variants::Aegis256>,
        "aegis256x2" => answer_of::<variants::Aegis256X2>,
        "aegis256x4" => answer_of::<variants::Aegis256X4>,
        name => panic!("{name} is no variant"),
    };
    answer(&fields)
}

/// Checks that the lines of a file have their answers, and that there are so many of them.
fn check(name: &str, count: usize) {
    let folder = Path::new(env!("CARGO_MANIFEST_DIR")).join("../crates/test_agreement/data");
    let read = |ending: &str| {
        let path = folder.join(format!("{name}.{ending}"));
        fs::read_to_string(&path).unwrap_or_else(|error| panic!("{}: {error}", path.display()))
    };
    let (lines, answers) = (read("in"), read("out"));
    let counts = [&lines, &answers].map(|text| text.lines().count());
    assert_eq!(counts, [count; 2]);
    for (line, expected) in lines.lines().zip(answers.lines()) {
        assert_eq!(line_answer(line), expected, "{line}");
    }
}

#[test]
fn published() {
    check("published", 30);
}

#[test]
fn wycheproof() {
    check("wycheproof", 1678);
}

#[test]
fn calls() {
    check("calls", 497);
}

#[test]
fn in_pieces() {
    check("in-pieces", 403);
}
