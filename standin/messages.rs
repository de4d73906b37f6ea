//! The exports on messages, keystreams and MACs. Those in place copy a buffer to itself.

use crate::aegis::Aegis;
use crate::code::{Answer, INVALID_TAG, WRONG_MESSAGE_LENGTH, check, check_keys, check_lengths, check_tag, result};
use crate::message::{ENDED, Role, State, decrypt, encrypt};
use crate::slices::{In, Out, exports, input, output};

/// Replaces the state by one that was begun, if all lengths are right, and by zeros otherwise.
fn begun(st: &mut State, answer: Answer, begin: impl FnOnce() -> State) -> Answer {
    *st = ENDED;
    answer?;
    *st = begin();
    Ok(())
}

fn mac_of(variant: u32, input: &[u8], nonce: &[u8], key: &[u8]) -> State {
    let mut state = State::begin(variant, Role::Mac, key, nonce);
    state.absorb(input);
    state
}

/// Copies bytes to another buffer, unless they are in it, or overlap it: the proved library borrows both.
fn copy(from: In, to: Out, length: usize) {
    if from.addr().abs_diff(to.addr()) >= length {
        // SAFETY: C ensures that each has so many bytes.
        unsafe { core::ptr::copy_nonoverlapping(from, to, length) }
    }
}

fn xor_keystream(variant: u32, bytes: &mut [u8], nonce: &[u8], key: &[u8]) {
    let mut aegis = Aegis::new(variant, key, nonce);
    for part in bytes.chunks_mut(aegis.rate()) {
        let mut keystream = [0; 128];
        aegis.keystream(&mut keystream);
        for (byte, key) in part.iter_mut().zip(keystream) {
            *byte ^= key;
        }
        aegis.absorb(&[0; 128][..aegis.rate()]);
    }
}

exports! {

fn hunkravy_proved_check_lengths(v: u32, n: usize, k: usize, m: usize, ad: usize, tag: usize) {
    check_lengths(v, n, k, m, ad, tag)
}

fn hunkravy_proved_encrypt(
    v: u32, m: In, mlen: usize, c: Out, clen: usize, ad: In, adlen: usize, n: In, nlen: usize, k: In, klen: usize,
    mac: Out, maclen: usize
) {
    check_lengths(v, nlen, klen, mlen, adlen, maclen)?;
    copy(m, c, mlen);
    let (key, nonce, data) = (input(k, klen), input(n, nlen), input(ad, adlen));
    encrypt(v, key, nonce, &[data], output(c, clen), output(mac, maclen));
    Ok(())
}

fn hunkravy_proved_encrypt_in_place(
    v: u32, mc: Out, mclen: usize, ad: In, adlen: usize, n: In, nlen: usize, k: In, klen: usize, mac: Out, maclen: usize
) {
    result(hunkravy_proved_encrypt(v, mc, mclen, mc, mclen, ad, adlen, n, nlen, k, klen, mac, maclen))
}

fn hunkravy_proved_decrypt(
    v: u32, c: In, clen: usize, m: Out, mlen: usize, ad: In, adlen: usize, n: In, nlen: usize, k: In, klen: usize,
    mac: In, maclen: usize
) {
    check_lengths(v, nlen, klen, clen, adlen, maclen)?;
    copy(c, m, clen);
    let (key, nonce, data) = (input(k, klen), input(n, nlen), input(ad, adlen));
    check(decrypt(v, key, nonce, &[data], output(m, mlen), input(mac, maclen)), INVALID_TAG)
}

fn hunkravy_proved_decrypt_in_place(
    v: u32, mc: Out, mclen: usize, ad: In, adlen: usize, n: In, nlen: usize, k: In, klen: usize, mac: In, maclen: usize
) {
    result(hunkravy_proved_decrypt(v, mc, mclen, mc, mclen, ad, adlen, n, nlen, k, klen, mac, maclen))
}

fn hunkravy_proved_stream(v: u32, out: Out, len: usize, n: In, nlen: usize, k: In, klen: usize) {
    check_keys(v, nlen, klen)?;
    output(out, len).fill(0);
    xor_keystream(v, output(out, len), input(n, nlen), input(k, klen));
    Ok(())
}

fn hunkravy_proved_stream_xor_in_place(v: u32, mc: Out, mclen: usize, n: In, nlen: usize, k: In, klen: usize) {
    check_keys(v, nlen, klen)?;
    xor_keystream(v, output(mc, mclen), input(n, nlen), input(k, klen));
    Ok(())
}

fn hunkravy_proved_mac(v: u32, bytes: In, len: usize, n: In, nlen: usize, k: In, klen: usize, mac: Out, maclen: usize) {
    check_lengths(v, nlen, klen, len, 0, maclen)?;
    mac_of(v, input(bytes, len), input(n, nlen), input(k, klen)).finish(output(mac, maclen));
    Ok(())
}

fn hunkravy_proved_mac_verify(
    v: u32, bytes: In, len: usize, n: In, nlen: usize, k: In, klen: usize, mac: In, maclen: usize
) {
    check_lengths(v, nlen, klen, len, 0, maclen)?;
    let state = mac_of(v, input(bytes, len), input(n, nlen), input(k, klen));
    check(state.is_finished_by(input(mac, maclen)), INVALID_TAG)
}

fn hunkravy_proved_state_init(v: u32, st: *mut State, ad: In, adlen: usize, n: In, nlen: usize, k: In, klen: usize) {
    begun(&mut *st, check_lengths(v, nlen, klen, 0, adlen, 16), || {
        State::begin_message(v, input(k, klen), input(n, nlen), &[input(ad, adlen)])
    })
}

fn hunkravy_proved_state_may_encrypt(st: *const State, mlen: usize) {
    (*st).check(&[Role::Message, Role::Encrypting], mlen)
}

fn hunkravy_proved_state_may_decrypt(st: *const State, clen: usize) {
    (*st).check(&[Role::Message, Role::Decrypting], clen)
}

fn hunkravy_proved_state_encrypt(st: *mut State, m: In, mlen: usize, c: Out, clen: usize) {
    result(hunkravy_proved_state_may_encrypt(st, mlen))?;
    copy(m, c, mlen);
    (*st).encrypt(output(c, clen));
    Ok(())
}

fn hunkravy_proved_state_encrypt_in_place(st: *mut State, mc: Out, mclen: usize) {
    result(hunkravy_proved_state_encrypt(st, mc, mclen, mc, mclen))
}

fn hunkravy_proved_state_decrypt_unverified(st: *mut State, c: In, clen: usize, m: Out, mlen: usize) {
    result(hunkravy_proved_state_may_decrypt(st, clen))?;
    copy(c, m, clen);
    (*st).decrypt(output(m, mlen));
    Ok(())
}

fn hunkravy_proved_state_decrypt_in_place_unverified(st: *mut State, mc: Out, mclen: usize) {
    result(hunkravy_proved_state_decrypt_unverified(st, mc, mclen, mc, mclen))
}

fn hunkravy_proved_state_decrypt_check(st: *mut State, c: In, clen: usize) {
    (*st).check(&[Role::Message, Role::Checking], clen)?;
    (*st).check_next(input(c, clen));
    Ok(())
}

fn hunkravy_proved_state_encrypt_final(st: *mut State, mac: Out, maclen: usize) {
    (*st).check(&[Role::Message, Role::Encrypting], 0)?;
    check_tag(maclen)?;
    (*st).finish(output(mac, maclen));
    *st = ENDED;
    Ok(())
}

fn hunkravy_proved_state_decrypt_final(st: *mut State, m: Out, mlen: usize, mac: In, maclen: usize) {
    (*st).check(&[Role::Message, Role::Decrypting, Role::Checking], 0)?;
    check((*st).may_give(mlen), WRONG_MESSAGE_LENGTH)?;
    check_tag(maclen)?;
    let is_right = (*st).is_finished_by(input(mac, maclen));
    *st = ENDED;
    if !is_right {
        output(m, mlen).fill(0xaa);
    }
    check(is_right, INVALID_TAG)
}

fn hunkravy_proved_mac_init(v: u32, st: *mut State, n: In, nlen: usize, k: In, klen: usize) {
    begun(&mut *st, check_keys(v, nlen, klen), || {
        State::begin(v, Role::Mac, input(k, klen), input(n, nlen))
    })
}

fn hunkravy_proved_mac_update(st: *mut State, bytes: In, len: usize) {
    (*st).check(&[Role::Mac], len)?;
    (*st).absorb(input(bytes, len));
    Ok(())
}

fn hunkravy_proved_mac_final(st: *const State, mac: Out, maclen: usize) {
    (*st).check(&[Role::Mac], 0)?;
    check_tag(maclen)?;
    (*st).finish(output(mac, maclen));
    Ok(())
}

fn hunkravy_proved_mac_final_verify(st: *const State, mac: In, maclen: usize) {
    (*st).check(&[Role::Mac], 0)?;
    check_tag(maclen)?;
    check((*st).is_finished_by(input(mac, maclen)), INVALID_TAG)
}

}

/// The length of a key and of a nonce.
#[unsafe(no_mangle)]
pub extern "C" fn hunkravy_proved_key_bytes(v: u32) -> usize {
    crate::code::key_bytes(v)
}
