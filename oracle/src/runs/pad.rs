//! The pad and the user of a run: the input that a state waits for, and odd ones in its place.

use crate::runs::account::{z, Account};
use crate::runs::calls::{Input, Oob};
use crate::runs::coverage::INPUTS;
use crate::runs::dice::Dice;
use crate::runs::lines::Seen;
use crate::runs::opening::{above_range, passkey, Plan, Sides};

/// Lengths around each boundary of 01.
const LENGTHS: [usize; 13] = [0, 1, 5, 6, 7, 8, 15, 16, 17, 63, 64, 65, 300];

/// The debug key of Part H 2.3.5.6.1, x and y, least significant octet first.
const DEBUG_KEY: [u128; 4] = [
    0xeff49111_acf4fddb_cc030148_0e359de6,
    0x20b003d2_f297be2c_5e2c83a7_e9f9a5b9,
    0x766345c2_8fed3024_741c8ed0_1589d28b,
    0xdc809c49_652aeb6d_63329abf_5a52155c,
];

pub struct Pad {
    features: [u8; 6],
    key: Vec<u8>,
    /// The passkey that the user types here; the pad reckons with it too.
    typed: u32,
    /// The nonce of the round that the pad has confirmed.
    nonce: u128,
    /// How often, of a thousand, a payload comes before the user has spoken.
    early: u64,
    /// The request has octets out of line.
    odd_features: bool,
}

impl Pad {
    pub fn new(plan: &Plan, sides: Sides, dice: &mut Dice) -> Self {
        let (_, io, _, oob, mitm) = sides;
        let mut auth = 0x08 | u8::from(mitm) << 2 | dice.pick(&[1, 1, 1, 0, 2, 3]);
        if dice.chance(300) {
            auth |= dice.byte() & 0xf0;
        }
        let identity = plan.leads() || dice.chance(600);
        let initiator = dice.byte() & 0x0d | u8::from(identity) << 1;
        let responder = dice.byte() & 0x0f;
        Self {
            features: [io, oob.into(), auth, 16, initiator, responder],
            key: dice.octets(64),
            typed: passkey(dice),
            nonce: 0,
            early: if plan.leads() && plan.held { 1000 } else { 500 },
            odd_features: !plan.clean() && dice.chance(200),
        }
    }

    /// What this state waits for.
    pub fn right(&mut self, seen: &Seen, account: &Account, dice: &mut Dice) -> Input {
        match seen.phase.name {
            "WaitingPairingRequest" if self.odd_features => self.odd_request(dice),
            "WaitingPairingRequest" => command(0x01, &self.features),
            "WaitingPublicKey" => command(0x0c, &self.key),
            "WaitingNumericComparisonResult" => self.compared(seen, account, dice),
            "WaitingPassKeyInput" => self.asked(seen, account, dice),
            "WaitingPassKeyEntryConfirm" => self.confirm(account.passkey(), seen, account, dice),
            "WaitingPassKeyEntryRandom" => command(0x04, &self.nonce.to_le_bytes()),
            "WaitingNumericComparisonRandom" | "WaitingOobRandom" => {
                command(0x04, &dice.bytes::<16>())
            }
            "WaitingOobData" => Input::OobDataReceived(oob_values(account, dice)),
            "WaitingDHKeyEa" => check(account),
            "WaitingLinkEncrypted" => Input::LinkEncryptedResult(true),
            "WaitingIdentitityInformation" => {
                let zero = dice.chance(50);
                let key: [u8; 16] = if zero { [0; 16] } else { dice.bytes() };
                command(0x08, &key)
            }
            "WaitingIdentitityAddressInformation" => command(0x09, &identity_address(dice)),
            _ => any(dice),
        }
    }

    /// The user's yes, or an early check before it.
    fn compared(&mut self, seen: &Seen, account: &Account, dice: &mut Dice) -> Input {
        if seen.phase.held == Some(false) && dice.chance(self.early) {
            check(account)
        } else {
            Input::PassKeyConfirm
        }
    }

    /// The user's passkey, or an early confirm before it.
    fn asked(&mut self, seen: &Seen, account: &Account, dice: &mut Dice) -> Input {
        if seen.phase.held == Some(false) && dice.chance(self.early) {
            self.confirm(self.typed, seen, account, dice)
        } else {
            Input::PassKeyInput(self.typed)
        }
    }

    fn confirm(&mut self, passkey: u32, seen: &Seen, account: &Account, dice: &mut Dice) -> Input {
        self.nonce = dice.big();
        let confirm = account.peer_confirm(self.nonce, z(passkey.into(), seen));
        command(0x03, &confirm.to_le_bytes())
    }

    /// An input of the kind named, for a run that has to meet it.
    pub fn of_kind(
        &mut self,
        kind: &str,
        seen: &Seen,
        account: &Account,
        dice: &mut Dice,
    ) -> Input {
        match kind {
            "empty" => Input::Command(vec![]),
            "other-code" => command(dice.pick(&[0x00, 0x0f, 0x10, 0xff]), &dice.octets(16)),
            "LinkEncrypted:true" => Input::LinkEncryptedResult(true),
            "LinkEncrypted:false" => Input::LinkEncryptedResult(false),
            "PassKeyConfirm" => Input::PassKeyConfirm,
            "PassKeyCancel" => Input::PassKeyCancel,
            "PassKeyInput" => Input::PassKeyInput(passkey(dice)),
            "OobDataReceived" => Input::OobDataReceived(oob_values(account, dice)),
            code => {
                let right = self.right(seen, account, dice);
                let code = INPUTS.iter().position(|name| *name == code).unwrap() as u8 + 1;
                let own = matches!(&right, Input::Command(c) if c.first() == Some(&code));
                match if own { dice.below(3) } else { 3 } {
                    0 => self.damaged(right, dice),
                    1 => resized(right, dice),
                    _ => command(code, &payload(code, dice)),
                }
            }
        }
    }

    /// Something else than what the state waits for.
    pub fn odd(&mut self, seen: &Seen, account: &Account, dice: &mut Dice) -> Input {
        let right = self.right(seen, account, dice);
        if seen.phase.held == Some(true) && dice.chance(400) {
            return second(seen, dice);
        }
        match dice.below(10) {
            0..=2 => self.damaged(right, dice),
            3 | 4 => resized(right, dice),
            5 if seen.phase.name == "WaitingPublicKey" => self.odd_key(account, dice),
            5 | 6 if seen.phase.name == "WaitingPairingRequest" => self.odd_request(dice),
            7 if seen.phase.name == "WaitingPairingRequest" => Input::LinkEncryptedResult(true),
            5 => Input::PassKeyInput(above_range(dice)),
            6 => early(seen, account, dice),
            7 => Input::LinkEncryptedResult(dice.chance(500)),
            _ => any(dice),
        }
    }

    /// One bit of the input turned.
    fn damaged(&mut self, right: Input, dice: &mut Dice) -> Input {
        let bit = 1u128 << dice.below(128);
        match right {
            Input::Command(mut bytes) if bytes.len() > 1 => {
                let place = 1 + dice.below(bytes.len() as u64 - 1) as usize;
                bytes[place] ^= 1 << dice.below(8);
                Input::Command(bytes)
            }
            Input::OobDataReceived(mut oob) => {
                match dice.below(4) {
                    0 => oob.own ^= bit,
                    1 => oob.peer ^= bit,
                    2 => oob.confirm ^= bit,
                    _ => oob.peer = 0,
                }
                Input::OobDataReceived(oob)
            }
            Input::PassKeyInput(_) if dice.chance(300) => Input::PassKeyCancel,
            Input::PassKeyInput(passkey) => {
                Input::PassKeyInput((passkey ^ 1 << dice.below(20)) % 1_000_000)
            }
            Input::LinkEncryptedResult(_) => Input::LinkEncryptedResult(false),
            Input::PassKeyConfirm => Input::PassKeyCancel,
            other => other,
        }
    }

    /// Keys that the crate refuses, and one of our x with another y, which it takes.
    fn odd_key(&self, account: &Account, dice: &mut Dice) -> Input {
        let mut ours = account.our_key();
        match dice.below(4) {
            0 => command(0x0c, &[0; 64]),
            1 => command(0x0c, &ours),
            2 => command(0x0c, &DEBUG_KEY.map(u128::to_le_bytes).concat()),
            _ => {
                ours[40] ^= 1;
                command(0x0c, &ours)
            }
        }
    }

    /// Features with one or two octets out of line.
    fn odd_request(&self, dice: &mut Dice) -> Input {
        let mut features = self.features;
        for _ in 0..1 + dice.below(2) {
            match dice.below(5) {
                0 => features[0] = dice.pick(&[5, 6, 0x80, 0xff]),
                1 => features[1] = dice.pick(&[2, 3, 0xff]),
                2 => features[2] &= !0x08,
                _ => {
                    let thrown = dice.byte();
                    features[3] = dice.pick(&[0, 6, 7, 15, 17, 255, thrown]);
                }
            }
        }
        let mut request = [&[0x01], &features[..]].concat();
        if dice.chance(150) {
            request.push(dice.byte());
        }
        Input::Command(request)
    }
}

/// Random out-of-band values with the confirm that belongs to them; sometimes the pad's are not there.
fn oob_values(account: &Account, dice: &mut Dice) -> Oob {
    let own = dice.big();
    if dice.chance(200) {
        return Oob {
            own,
            peer: 0,
            confirm: 0,
        };
    }
    let peer = if dice.chance(50) { 0 } else { dice.big() };
    Oob {
        own,
        peer,
        confirm: account.oob_confirm(peer),
    }
}

fn check(account: &Account) -> Input {
    command(0x0d, &account.peer_check().unwrap_or(0).to_le_bytes())
}

/// Type, address, and perhaps octets behind it.
fn identity_address(dice: &mut Dice) -> Vec<u8> {
    let more = if dice.chance(100) {
        1 + dice.below(9)
    } else {
        0
    };
    let mut body = vec![dice.below(2) as u8];
    body.extend(dice.octets(6 + more as usize));
    body
}

/// What a later state waits for, too early.
fn early(seen: &Seen, account: &Account, dice: &mut Dice) -> Input {
    match seen.phase.name {
        "WaitingOobData" => command(0x04, &dice.bytes::<16>()),
        "WaitingPassKeyInput" => {
            let length = dice.pick(&LENGTHS);
            command(0x03, &dice.octets(length))
        }
        _ => check(account),
    }
}

/// A second payload where one is held.
fn second(seen: &Seen, dice: &mut Dice) -> Input {
    let code = match seen.phase.name {
        "WaitingPassKeyInput" => 0x03,
        _ => 0x0d,
    };
    let other = dice.pick(&LENGTHS);
    let length = dice.pick(&[16, 16, other]);
    command(code, &dice.octets(length))
}

/// The right command at another length.
fn resized(right: Input, dice: &mut Dice) -> Input {
    match right {
        Input::Command(mut bytes) => {
            let length = dice.pick(&LENGTHS);
            let shorter = bytes.len().saturating_sub(2);
            let near = dice.pick(&[length, length, shorter, bytes.len()]);
            while bytes.len() < near + 1 {
                bytes.push(dice.byte());
            }
            bytes.truncate(near + 1);
            Input::Command(bytes)
        }
        _ => any(dice),
    }
}

/// Any command or event at all.
fn any(dice: &mut Dice) -> Input {
    match dice.below(12) {
        0 => Input::PassKeyConfirm,
        1 => Input::PassKeyCancel,
        2 => Input::PassKeyInput(passkey(dice)),
        3 => Input::LinkEncryptedResult(dice.chance(500)),
        4 => Input::OobDataReceived(any_oob(dice)),
        5 => Input::Command(vec![]),
        6 => command(dice.byte(), &dice.octets(16)),
        _ => {
            let code = 1 + dice.below(14) as u8;
            command(code, &payload(code, dice))
        }
    }
}

pub fn any_oob(dice: &mut Dice) -> Oob {
    Oob {
        own: dice.big(),
        peer: dice.big(),
        confirm: dice.big(),
    }
}

/// A payload of the code's own length, or of another.
fn payload(code: u8, dice: &mut Dice) -> Vec<u8> {
    let own = match code {
        0x01 | 0x02 => 6,
        0x05 | 0x0b | 0x0e => 1,
        0x07 => 10,
        0x09 => 7,
        0x0c => 64,
        _ => 16,
    };
    let other = dice.pick(&LENGTHS);
    let length = match code {
        0x05 if dice.chance(300) => 0,
        _ if dice.chance(600) => own,
        _ => other,
    };
    let mut body = dice.octets(length);
    if let (true, Some(first)) = (dice.chance(500), body.first_mut()) {
        *first %= 17;
    }
    body
}

fn command(code: u8, body: &[u8]) -> Input {
    Input::Command([&[code], body].concat())
}
