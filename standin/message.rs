//! A message or a MAC between two calls, and both in one call.

use crate::aegis::Aegis;
use crate::code::{Answer, MAX_BYTES, MESSAGE_TOO_LONG, WRONG_STATE, check, is_same};

/// What a state is.
#[derive(Clone, Copy, PartialEq, Eq)]
pub enum Role {
    /// A message that may be encrypted, decrypted or checked.
    Message = 1,
    Encrypting = 2,
    Decrypting = 3,
    Mac = 4,
    Journal = 5,
    Checking = 6,
}

const MARK: u64 = 0x4855_4e4b;

/// A message, as the caller of the library keeps it.
#[repr(C)]
#[derive(Clone, Copy)]
pub struct State {
    mark: u64,
    rows: [u8; 512],
    block: [u8; 128],
    data_bytes: u64,
    pub message_bytes: u64,
    variant: u32,
    role: u32,
}

/// A state after its end.
pub const ENDED: State =
    State { mark: 0, rows: [0; 512], block: [0; 128], data_bytes: 0, message_bytes: 0, variant: 0, role: 0 };

/// What is done with the bytes of a message.
#[derive(Clone, Copy, PartialEq, Eq)]
enum Pass {
    Encrypt,
    Decrypt,
    /// They are taken in, and not changed.
    Absorb,
}

impl State {
    /// Begins a state. Its lengths are right.
    pub fn begin(variant: u32, role: Role, key: &[u8], nonce: &[u8]) -> Self {
        State { mark: MARK, rows: Aegis::new(variant, key, nonce).save(), variant, role: role as u32, ..ENDED }
    }

    /// Begins a message with associated data, which come in parts.
    pub fn begin_message(variant: u32, key: &[u8], nonce: &[u8], data: &[&[u8]]) -> Self {
        let mut state = State::begin(variant, Role::Message, key, nonce);
        for part in data {
            state.absorb(part);
        }
        let mut aegis = state.aegis();
        state.absorb_block(&mut aegis);
        state.rows = aegis.save();
        state.block = [0; 128];
        state.data_bytes = state.message_bytes;
        state.message_bytes = 0;
        state
    }

    /// Returns an error unless it is in one of the roles, and may take in so many bytes more.
    pub fn check(&self, roles: &[Role], more: usize) -> Answer {
        let is_role = roles.iter().any(|role| *role as u32 == self.role);
        check(self.mark == MARK && self.variant < 6 && is_role, WRONG_STATE)?;
        check(!self.is_mac() || self.data_bytes == 0, WRONG_STATE)?;
        check(self.message_bytes.max(self.data_bytes) <= MAX_BYTES, WRONG_STATE)?;
        check(more as u64 <= MAX_BYTES - self.message_bytes, MESSAGE_TOO_LONG)
    }

    fn is_mac(&self) -> bool {
        self.role == Role::Mac as u32 || self.role == Role::Journal as u32
    }

    fn aegis(&self) -> Aegis {
        Aegis::restored(self.variant, &self.rows)
    }

    /// Encrypts the next bytes.
    pub fn encrypt(&mut self, bytes: &mut [u8]) {
        self.role = Role::Encrypting as u32;
        self.pass(bytes, Pass::Encrypt);
    }

    /// Decrypts the next bytes.
    pub fn decrypt(&mut self, bytes: &mut [u8]) {
        self.role = Role::Decrypting as u32;
        self.pass(bytes, Pass::Decrypt);
    }

    /// Decrypts the next bytes, and writes none of them.
    pub fn check_next(&mut self, bytes: &[u8]) {
        self.role = Role::Checking as u32;
        self.pass_copies(bytes, Pass::Decrypt);
    }

    /// Returns whether so many bytes of the message may be given at its end: all or none, and none after a check.
    pub fn may_give(&self, bytes: usize) -> bool {
        bytes == 0 || self.role != Role::Checking as u32 && bytes as u64 == self.message_bytes
    }

    /// Takes in the next bytes of associated data or of the input of a MAC.
    pub fn absorb(&mut self, bytes: &[u8]) {
        self.pass_copies(bytes, Pass::Absorb);
    }

    fn pass_copies(&mut self, bytes: &[u8], pass: Pass) {
        for part in bytes.chunks(256) {
            let mut copy = [0; 256];
            let copy = &mut copy[..part.len()];
            copy.copy_from_slice(part);
            self.pass(copy, pass);
        }
    }

    fn pass(&mut self, mut bytes: &mut [u8], pass: Pass) {
        let mut aegis = self.aegis();
        while !bytes.is_empty() {
            let at = self.message_bytes as usize % aegis.rate();
            let count = bytes.len().min(aegis.rate() - at);
            let (part, rest) = bytes.split_at_mut(count);
            self.pass_part(&aegis, part, at, pass);
            bytes = rest;
            if at + count == aegis.rate() {
                aegis.absorb(&self.block[..aegis.rate()]);
                self.block = [0; 128];
            }
        }
        self.rows = aegis.save();
    }

    /// Passes bytes that begin at a place of a block, and end in the same block.
    fn pass_part(&mut self, aegis: &Aegis, part: &mut [u8], at: usize, pass: Pass) {
        let mut keystream = [0; 128];
        if pass != Pass::Absorb {
            aegis.keystream(&mut keystream);
        }
        let plain = self.block[at..].iter_mut();
        for ((byte, plain), key) in part.iter_mut().zip(plain).zip(&keystream[at..]) {
            let other = *byte ^ key;
            *plain = if pass == Pass::Decrypt { other } else { *byte };
            *byte = other;
        }
        self.message_bytes += part.len() as u64;
    }

    /// Absorbs the block that is not full, if there is one.
    fn absorb_block(&self, aegis: &mut Aegis) {
        if self.message_bytes % aegis.rate() as u64 != 0 {
            aegis.absorb(&self.block[..aegis.rate()]);
        }
    }

    /// Writes the tag of the message, or the MAC.
    pub fn finish(&self, tag: &mut [u8]) {
        let mut aegis = self.aegis();
        self.absorb_block(&mut aegis);
        if !self.is_mac() {
            return aegis.tag(self.data_bytes, self.message_bytes, tag);
        }
        if self.message_bytes == 0 {
            aegis.absorb(&[0; 128][..aegis.rate()]);
        }
        aegis.mac(self.message_bytes, tag);
    }

    /// Returns whether this is the tag of the message, or the MAC.
    pub fn is_finished_by(&self, tag: &[u8]) -> bool {
        let mut own = [0; 32];
        let own = &mut own[..tag.len()];
        self.finish(own);
        is_same(own, tag)
    }
}

/// Encrypts a message in one call. All lengths are right.
pub fn encrypt(variant: u32, key: &[u8], nonce: &[u8], data: &[&[u8]], message: &mut [u8], tag: &mut [u8]) {
    let mut state = State::begin_message(variant, key, nonce, data);
    state.encrypt(message);
    state.finish(tag);
}

/// Decrypts a message in one call, and returns whether this is its tag. Otherwise its bytes are erased.
pub fn decrypt(variant: u32, key: &[u8], nonce: &[u8], data: &[&[u8]], message: &mut [u8], tag: &[u8]) -> bool {
    let mut state = State::begin_message(variant, key, nonce, data);
    state.decrypt(message);
    let is_right = state.is_finished_by(tag);
    if !is_right {
        message.fill(0xaa);
    }
    is_right
}
