//! A sample of the page of the crate `aegis`, under its name.

pub fn in_place() {
    use aegis::aegis128l::Aegis128L;

    let key = [0u8; 16];
    let nonce = [0u8; 16]; // Never reuse a nonce with the same key!
    let ad = b"additional data";

    let mut buf = *b"AEGIS is fast";
    let tag = Aegis128L::<16>::new(&key, &nonce).encrypt_in_place(&mut buf, ad);
    Aegis128L::<16>::new(&key, &nonce)
        .decrypt_in_place(&mut buf, &tag, ad)
        .unwrap();
    assert_eq!(&buf, b"AEGIS is fast");
}
