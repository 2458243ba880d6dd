//! Calls, and their byte form: the records of docs/CALLS.md.

use crate::harness::Setup;
use crate::security_manager::crypto::SecretKey;
use crate::{Address, BondInformation, IoCapabilities};

/// How a pairing begins.
#[derive(Clone)]
pub struct Opening {
    /// 0 plain, 1 with a Security Request by the user's wish, 2 with one not by the user's wish.
    pub start: u8,
    pub outbox: u16,
    pub io: IoCapabilities,
    pub oob: bool,
    pub bonding: bool,
    pub passkey: Option<u32>,
    pub secret: SecretKey,
    /// Public x, public y and the shared secret, as the stand-in for P-256 draws them.
    pub secret_bytes: [u8; 96],
    pub irk: u128,
    pub own: Address,
    pub identity: Address,
    pub peer: Address,
    pub known: bool,
    /// The known bond; carried and not read where none is known.
    pub bond: BondInformation,
}

impl Opening {
    pub fn harness(&self) -> Setup {
        Setup {
            peer_address: self.peer,
            identity_address: self.identity,
            irk: self.irk.to_le_bytes(),
            bonding: self.bonding,
            oob_available: self.oob,
            passkey: self.passkey,
            bond: self.known.then(|| self.bond.clone()),
            secret_key: self.secret.clone(),
        }
    }

    pub fn shared(&self) -> [u8; 32] {
        self.secret_bytes[64..].try_into().unwrap()
    }

    pub fn record(&self) -> Vec<u8> {
        let mut body = vec![self.start];
        body.extend(self.outbox.to_le_bytes());
        body.push(self.io.into());
        body.extend([self.oob, self.bonding, self.passkey.is_some()].map(u8::from));
        body.extend(self.passkey.unwrap_or(0).to_le_bytes());
        body.extend(&self.secret_bytes[..64]);
        body.extend(self.irk.to_be_bytes());
        for address in [self.own, self.identity, self.peer] {
            body.extend(address.to_bytes());
        }
        body.push(self.known.into());
        body.extend(self.bond.ltk.0.to_be_bytes());
        body.push(self.bond.security_level as u8);
        body.extend(self.bond.identity.addr.to_bytes());
        body.extend(irk(&self.bond).to_be_bytes());
        record(1, body)
    }
}

/// A bond's IRK; zero for none.
pub fn irk(bond: &BondInformation) -> u128 {
    bond.identity.irk.as_ref().map_or(0, u128::from)
}

#[derive(Clone, Debug, PartialEq)]
pub enum Input {
    /// Code and payload.
    Command(Vec<u8>),
    LinkEncryptedResult(bool),
    PassKeyConfirm,
    PassKeyCancel,
    PassKeyInput(u32),
    OobDataReceived(Oob),
}

#[derive(Clone, Copy, Debug, PartialEq)]
pub struct Oob {
    pub own: u128,
    pub peer: u128,
    pub confirm: u128,
}

/// Drawn values and the answers to all seven questions.
#[derive(Clone)]
pub struct Supplied {
    pub nonce: u128,
    pub passkey: u32,
    pub valid: bool,
    pub dh_key: [u8; 32],
    pub own_confirm: u128,
    pub peer_confirm: u128,
    pub g2: u32,
    pub mac_key: u128,
    pub ltk: u128,
    pub peer_check: u128,
    pub own_check: u128,
}

impl Supplied {
    /// All seven answers are given.
    const GIVEN: u8 = 0x7f;

    fn bytes(&self) -> Vec<u8> {
        let mut body = vec![Self::GIVEN];
        body.extend(self.nonce.to_be_bytes());
        body.extend(self.passkey.to_le_bytes());
        body.push(self.valid.into());
        body.extend(self.dh_key);
        for value in [self.own_confirm, self.peer_confirm] {
            body.extend(value.to_be_bytes());
        }
        body.extend(self.g2.to_le_bytes());
        for value in [self.mac_key, self.ltk, self.peer_check, self.own_check] {
            body.extend(value.to_be_bytes());
        }
        body
    }
}

#[derive(Clone)]
pub struct Call {
    pub input: Input,
    /// Out-of-band values beside an event that doesn't read them.
    pub beside: Oob,
    pub outbox: u16,
    pub supplied: Supplied,
}

impl Call {
    pub fn kind(&self) -> &'static str {
        match self.input {
            Input::Command(_) => "command",
            _ => "event",
        }
    }

    pub fn record(&self) -> Vec<u8> {
        let mut body = self.outbox.to_le_bytes().to_vec();
        body.extend(self.supplied.bytes());
        let (event, number) = match &self.input {
            Input::Command(command) => {
                body.extend(command);
                return record(2, body);
            }
            Input::LinkEncryptedResult(good) => (1, u32::from(*good)),
            Input::PassKeyConfirm => (2, 0),
            Input::PassKeyCancel => (3, 0),
            Input::PassKeyInput(passkey) => (4, *passkey),
            Input::OobDataReceived(_) => (5, 0),
        };
        body.push(event);
        body.extend(number.to_le_bytes());
        let oob = match self.input {
            Input::OobDataReceived(oob) => oob,
            _ => self.beside,
        };
        for value in [oob.own, oob.peer, oob.confirm] {
            body.extend(value.to_be_bytes());
        }
        record(3, body)
    }
}

pub fn timeout_record() -> Vec<u8> {
    record(4, vec![])
}

/// What somebody saw: 0 started or taken, 1 failed, 2 refused, and its number.
pub fn answer_record(answer: (u8, u8)) -> Vec<u8> {
    record(5, vec![answer.0, answer.1])
}

fn record(kind: u16, body: Vec<u8>) -> Vec<u8> {
    let mut record = (body.len() as u16).to_le_bytes().to_vec();
    record.extend(kind.to_le_bytes());
    record.extend(body);
    record
}
