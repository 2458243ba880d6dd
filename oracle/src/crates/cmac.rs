//! Stands in for the crates cmac and digest: AES-CMAC as RFC 4493 writes it down.
//! It is real, because f4, f5, f6 and g2 have to give true values.

use aes::cipher::{BlockEncrypt, KeyInit};
use aes::Aes128;

pub mod digest {
    pub use aes::cipher::KeyInit;

    /// Reads out as an array only, as crypto.rs leaves that type to be inferred.
    pub struct Tag(pub [u8; 16]);

    impl AsRef<[u8; 16]> for Tag {
        fn as_ref(&self) -> &[u8; 16] {
            &self.0
        }
    }

    pub trait Update {
        fn update(&mut self, data: &[u8]);
    }

    pub trait FixedOutput {
        fn finalize_fixed(self) -> Tag;
    }

    pub trait FixedOutputReset {
        fn finalize_into_reset(&mut self, out: &mut [u8; 16]);
    }
}

/// The whole message is kept until the end: only its last block tells which subkey to use.
#[derive(Debug)]
pub struct Cmac<C> {
    cipher: C,
    message: Vec<u8>,
}

impl KeyInit for Cmac<Aes128> {
    type Key = [u8; 16];

    fn new(key: &[u8; 16]) -> Self {
        Self {
            cipher: Aes128::new(key),
            message: Vec::new(),
        }
    }
}

impl digest::Update for Cmac<Aes128> {
    fn update(&mut self, data: &[u8]) {
        self.message.extend_from_slice(data);
    }
}

impl digest::FixedOutput for Cmac<Aes128> {
    fn finalize_fixed(self) -> digest::Tag {
        digest::Tag(tag(&self.cipher, &self.message))
    }
}

impl digest::FixedOutputReset for Cmac<Aes128> {
    fn finalize_into_reset(&mut self, out: &mut [u8; 16]) {
        *out = tag(&self.cipher, &self.message);
        self.message.clear();
    }
}

fn tag(cipher: &Aes128, message: &[u8]) -> [u8; 16] {
    let last_start = message.len().saturating_sub(1) / 16 * 16;
    let (head, last) = message.split_at(last_start);
    let mut state = 0;
    for block in head.chunks_exact(16) {
        state = encrypt(cipher, state ^ padded(block));
    }
    encrypt(cipher, state ^ closing_block(cipher, last)).to_be_bytes()
}

/// A full last block takes the first subkey; a short one is marked with one bit and takes the second.
fn closing_block(cipher: &Aes128, last: &[u8]) -> u128 {
    let first_subkey = double(encrypt(cipher, 0));
    if last.len() == 16 {
        padded(last) ^ first_subkey
    } else {
        padded(&[last, &[0x80]].concat()) ^ double(first_subkey)
    }
}

fn padded(bytes: &[u8]) -> u128 {
    let mut block = [0; 16];
    block[..bytes.len()].copy_from_slice(bytes);
    u128::from_be_bytes(block)
}

fn double(block: u128) -> u128 {
    (block << 1) ^ (if block >> 127 != 0 { 0x87 } else { 0 })
}

fn encrypt(cipher: &Aes128, block: u128) -> u128 {
    let mut bytes = block.to_be_bytes();
    cipher.encrypt_block(&mut bytes);
    u128::from_be_bytes(bytes)
}
