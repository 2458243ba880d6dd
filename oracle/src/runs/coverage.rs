//! Which state met which input, how often; and which feature combinations a request was accepted with.

use std::collections::{BTreeMap, BTreeSet};

use crate::runs::calls::Input;

pub const STATES: [&str; 15] = [
    "WaitingPairingRequest",
    "WaitingPublicKey",
    "WaitingNumericComparisonRandom",
    "WaitingNumericComparisonResult",
    "WaitingPassKeyInput",
    "WaitingPassKeyEntryConfirm",
    "WaitingPassKeyEntryRandom",
    "WaitingOobData",
    "WaitingOobRandom",
    "WaitingDHKeyEa",
    "WaitingLinkEncrypted",
    "WaitingIdentitityInformation",
    "WaitingIdentitityAddressInformation",
    "Success",
    "Error",
];

/// The codes 01 to 0E as numbers, and what else a machine can meet.
pub const INPUTS: [&str; 23] = [
    "01",
    "02",
    "03",
    "04",
    "05",
    "06",
    "07",
    "08",
    "09",
    "0a",
    "0b",
    "0c",
    "0d",
    "0e",
    "other-code",
    "empty",
    "LinkEncrypted:true",
    "LinkEncrypted:false",
    "PassKeyConfirm",
    "PassKeyCancel",
    "PassKeyInput",
    "OobDataReceived",
    "timeout",
];

pub fn input_name(input: &Input) -> &'static str {
    match input {
        Input::Command(command) => match command.first() {
            None => "empty",
            Some(code @ 0x01..=0x0e) => INPUTS[usize::from(*code) - 1],
            Some(_) => "other-code",
        },
        Input::LinkEncryptedResult(true) => "LinkEncrypted:true",
        Input::LinkEncryptedResult(false) => "LinkEncrypted:false",
        Input::PassKeyConfirm => "PassKeyConfirm",
        Input::PassKeyCancel => "PassKeyCancel",
        Input::PassKeyInput(_) => "PassKeyInput",
        Input::OobDataReceived(_) => "OobDataReceived",
    }
}

/// Local IO, peer IO, peer MITM, both OOB flags: our MITM bit follows our IO, so these are 200.
pub type Combination = (u8, u8, bool, bool, bool);

#[derive(Default)]
pub struct Coverage {
    pub met: BTreeMap<(&'static str, &'static str), u64>,
    pub combinations: BTreeSet<Combination>,
    /// Method and answer, or method and Success, of the calls that ended a run.
    pub ends: BTreeMap<String, u64>,
}

impl Coverage {
    pub fn meet(&mut self, state: &'static str, input: &'static str) {
        *self.met.entry((state, input)).or_default() += 1;
    }

    pub fn end(&mut self, method: &str, end: &str) {
        *self.ends.entry(format!("{method} {end}")).or_default() += 1;
    }

    /// Lines `met STATE INPUT COUNT`, `combination ..`, `end METHOD ANSWER COUNT`.
    pub fn write(&self, out: &mut impl std::io::Write) -> std::io::Result<()> {
        for state in STATES {
            for input in INPUTS {
                let count = self.met.get(&(state, input)).unwrap_or(&0);
                writeln!(out, "met {state} {input} {count}")?;
            }
        }
        for (own, peer, mitm, peer_oob, oob) in &self.combinations {
            let [mitm, peer_oob, oob] = [*mitm, *peer_oob, *oob].map(u8::from);
            writeln!(out, "combination {own},{peer},{mitm},{peer_oob},{oob}")?;
        }
        for (end, count) in &self.ends {
            writeln!(out, "end {end} {count}")?;
        }
        Ok(())
    }
}
