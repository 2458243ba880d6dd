//! Checks our AES and CMAC, and the crate's f4, f5, f6 and g2 over them, against the samples
//! of FIPS 197, RFC 4493 and the Core Specification, Vol 3 Part H, Appendix D.

use std::process::ExitCode;

use aes::cipher::BlockEncrypt;
use aes::Aes128;
use bt_hci::param::{AddrKind, BdAddr};
use cmac::digest::{FixedOutput, KeyInit, Update};
use cmac::Cmac;

use crate::harness::Script;
use crate::security_manager::crypto::{DHKey, IoCap, Nonce, PublicKey, PublicKeyX, SecretKey};
use crate::Address;

const FIPS_KEY: u128 = 0x00010203_04050607_08090a0b_0c0d0e0f;
const FIPS_BLOCK: u128 = 0x00112233_44556677_8899aabb_ccddeeff;
const FIPS_CIPHER: u128 = 0x69c4e0d8_6a7b0430_d8cdb780_70b4c55a;

const RFC_KEY: u128 = 0x2b7e1516_28aed2a6_abf71588_09cf4f3c;
const RFC_MESSAGE: [u128; 4] = [
    0x6bc1bee2_2e409f96_e93d7e11_7393172a,
    0xae2d8a57_1e03ac9c_9eb76fac_45af8e51,
    0x30c81c46_a35ce411_e5fbc119_1a0a52ef,
    0xf69f2445_df4f9b17_ad2b417b_e66c3710,
];
const RFC_TAGS: [(usize, u128); 4] = [
    (0, 0xbb1d6929_e9593728_7fa37d12_9b756746),
    (16, 0x070a16b4_6b4d4144_f79bdd9d_d04a287c),
    (40, 0xdfa66747_de9ae630_30ca3261_1497c827),
    (64, 0x51f0bebf_7e3b9d92_fc497417_79363cfe),
];

const U: [u128; 2] = [
    0x20b003d2_f297be2c_5e2c83a7_e9f9a5b9,
    0xeff49111_acf4fddb_cc030148_0e359de6,
];
const V: [u128; 2] = [
    0x55188b3d_32f6bb9a_900afcfb_eed4e72a,
    0x59cb9ac2_f19d7cfb_6b4fdd49_f47fc5fd,
];
const W: [u128; 2] = [
    0xec0234a3_57c8ad05_341010a6_0a397d9b,
    0x99796b13_b4f866f1_868d34f3_73bfa698,
];
const N1: Nonce = Nonce(0xd5cb8454_d177733e_ffffb2ec_712baeab);
const N2: Nonce = Nonce(0xa6e8e7cc_25a75f6e_216583f7_ff3dc4cf);
const R: u128 = 0x12a3343b_b453bb54_08da42d2_0c2d0fc8;
const IO_CAP: [u8; 3] = [0x01, 0x01, 0x02];
const A1: [u8; 6] = [0x56, 0x12, 0x37, 0x37, 0xbf, 0xce];
const A2: [u8; 6] = [0xa7, 0x13, 0x70, 0x2d, 0xcf, 0xc1];
const F4: u128 = 0xf2c916f1_07a9bd1c_f1eda1be_a974872d;
const F5_LTK: u128 = 0x69867911_69d7cd23_980522b5_94750a38;
const F6: u128 = 0xe3c47398_9cd0e8c5_d26c0b09_da958f61;
const G2: u32 = 0x2f9ed5ba;

pub fn run() -> ExitCode {
    let mut tally = Tally::default();
    check_aes(&mut tally);
    check_cmac(&mut tally);
    check_part_h(&mut tally);
    tally.close()
}

fn check_aes(tally: &mut Tally) {
    let mut block = FIPS_BLOCK.to_be_bytes();
    Aes128::new(&FIPS_KEY.to_be_bytes()).encrypt_block(&mut block);
    tally.check("FIPS 197 C.1", block == FIPS_CIPHER.to_be_bytes());
}

fn check_cmac(tally: &mut Tally) {
    let message = RFC_MESSAGE.map(u128::to_be_bytes).concat();
    for (length, tag) in RFC_TAGS {
        let mut mac = Cmac::<Aes128>::new(&RFC_KEY.to_be_bytes());
        mac.update(&message[..length]);
        let good = *mac.finalize_fixed().as_ref() == tag.to_be_bytes();
        tally.check(&format!("RFC 4493 length {length}"), good);
    }
}

/// The crate hides the MAC key that f5 gives: f6, computed under it, speaks for it.
/// It also hides g2 before the modulo.
fn check_part_h(tally: &mut Tally) {
    let (u, v) = (key_x(U), key_x(V));
    let (a1, a2) = (address(A1), address(A2));
    let (mac_key, ltk) = dh_key(W).f5(N1, N2, a1, a2);
    tally.check("Part H f4", N1.f4(&u, &v, 0).0 == F4);
    tally.check("Part H f5", ltk.0 == F5_LTK);
    tally.check(
        "Part H f6",
        mac_key.f6(N1, N2, R, IoCap(IO_CAP), a1, a2).0 == F6,
    );
    tally.check("Part H g2", N1.g2(&u, &v, &N2).0 == G2 % 1_000_000);
}

/// A public key comes in least significant byte first; its y plays no part here.
fn key_x(x: [u128; 2]) -> PublicKeyX {
    let mut bytes = [x.map(u128::to_be_bytes).concat(), vec![0; 32]].concat();
    bytes[..32].reverse();
    *PublicKey::from_bytes(&bytes).x()
}

fn address(mut bytes: [u8; 6]) -> Address {
    bytes.reverse();
    Address::new(AddrKind::PUBLIC, BdAddr::new(bytes))
}

/// The stand-in curve draws a key's public half first and then the shared secret it will give.
fn dh_key(secret: [u128; 2]) -> DHKey {
    let drawn = [vec![1; 64], secret.map(u128::to_be_bytes).concat()].concat();
    let key = SecretKey::new(&mut Script::new(drawn));
    let peer = PublicKey::from_bytes(&[2; 64]);
    key.dh_key(peer, &key.public_key())
        .expect("the peer's key is another key")
}

#[derive(Default)]
struct Tally {
    passed: usize,
    failed: usize,
}

impl Tally {
    fn check(&mut self, name: &str, good: bool) {
        if good {
            self.passed += 1;
            println!("{name} ok");
        } else {
            self.failed += 1;
            println!("{name} FAILED");
        }
    }

    fn close(self) -> ExitCode {
        println!("{} passed, {} failed", self.passed, self.failed);
        ExitCode::from(u8::from(self.failed > 0))
    }
}
