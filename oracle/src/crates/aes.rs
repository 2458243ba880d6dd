//! Stands in for the crate aes: AES-128 encryption as FIPS 197 writes it down.
//! It is real, because f4, f5, f6 and g2 have to give true values.

pub mod cipher {
    #[derive(Debug)]
    pub struct InvalidLength;

    pub type Key<A> = <A as KeyInit>::Key;

    pub trait KeyInit: Sized {
        type Key: for<'a> TryFrom<&'a [u8]>;

        fn new(key: &Self::Key) -> Self;

        fn new_from_slice(key: &[u8]) -> Result<Self, InvalidLength> {
            let key = Self::Key::try_from(key).map_err(|_| InvalidLength)?;
            Ok(Self::new(&key))
        }
    }

    pub trait BlockEncrypt {
        fn encrypt_block(&self, block: &mut [u8; 16]);
    }
}

use cipher::{BlockEncrypt, KeyInit};

const ROUNDS: usize = 10;

static SBOX: [u8; 256] = substitution_table();

#[derive(Clone, Debug)]
pub struct Aes128 {
    round_keys: [[u8; 16]; ROUNDS + 1],
}

impl KeyInit for Aes128 {
    type Key = [u8; 16];

    fn new(key: &[u8; 16]) -> Self {
        let mut round_keys = [*key; ROUNDS + 1];
        let mut constant = 1;
        for round in 1..=ROUNDS {
            round_keys[round] = next_round_key(&round_keys[round - 1], constant);
            constant = double(constant);
        }
        Self { round_keys }
    }
}

impl BlockEncrypt for Aes128 {
    fn encrypt_block(&self, block: &mut [u8; 16]) {
        add_round_key(block, &self.round_keys[0]);
        for round in 1..ROUNDS {
            substitute(block);
            shift_rows(block);
            mix_columns(block);
            add_round_key(block, &self.round_keys[round]);
        }
        substitute(block);
        shift_rows(block);
        add_round_key(block, &self.round_keys[ROUNDS]);
    }
}

fn next_round_key(previous: &[u8; 16], constant: u8) -> [u8; 16] {
    let mut key = *previous;
    for i in 0..4 {
        key[i] ^= SBOX[previous[12 + (i + 1) % 4] as usize];
    }
    key[0] ^= constant;
    for i in 4..16 {
        key[i] ^= key[i - 4];
    }
    key
}

fn add_round_key(block: &mut [u8; 16], key: &[u8; 16]) {
    for (byte, key_byte) in block.iter_mut().zip(key) {
        *byte ^= key_byte;
    }
}

fn substitute(block: &mut [u8; 16]) {
    for byte in block {
        *byte = SBOX[*byte as usize];
    }
}

/// The block is kept column by column, so row r of column c is byte 4c + r.
fn shift_rows(block: &mut [u8; 16]) {
    let before = *block;
    for column in 0..4 {
        for row in 0..4 {
            block[4 * column + row] = before[4 * ((column + row) % 4) + row];
        }
    }
}

fn mix_columns(block: &mut [u8; 16]) {
    for column in block.chunks_exact_mut(4) {
        let before = [column[0], column[1], column[2], column[3]];
        let all = before[0] ^ before[1] ^ before[2] ^ before[3];
        for row in 0..4 {
            column[row] ^= all ^ double(before[row] ^ before[(row + 1) % 4]);
        }
    }
}

const fn double(byte: u8) -> u8 {
    (byte << 1) ^ (if byte & 0x80 != 0 { 0x1b } else { 0 })
}

const fn multiply(mut a: u8, mut b: u8) -> u8 {
    let mut product = 0;
    while b != 0 {
        if b & 1 != 0 {
            product ^= a;
        }
        a = double(a);
        b >>= 1;
    }
    product
}

/// The inverse is the power 254 = 2 + 4 + ... + 128, which also sends 0 to 0.
const fn inverse(byte: u8) -> u8 {
    let mut power = byte;
    let mut product = 1;
    let mut i = 0;
    while i < 7 {
        power = multiply(power, power);
        product = multiply(product, power);
        i += 1;
    }
    product
}

const fn substitution_table() -> [u8; 256] {
    let mut table = [0; 256];
    let mut i = 0;
    while i < 256 {
        let b = inverse(i as u8);
        table[i] =
            b ^ b.rotate_left(1) ^ b.rotate_left(2) ^ b.rotate_left(3) ^ b.rotate_left(4) ^ 0x63;
        i += 1;
    }
    table
}
