//! The lines that `bench` has to write, by the grammar of docs/CALLS.md.

use crate::connection::{ConnectionEvent, SecurityLevel};
use crate::harness::Action;
use crate::runs::calls::irk;
use crate::runs::twin::Outcome;
use crate::security_manager::pairing::central::view::{self, Phase};
use crate::methods::method_name;
use crate::security_manager::pairing::central::PairingMethod;
use crate::security_manager::pairing::Pairing;
use crate::{Address, BondInformation, Error};

/// What is seen of a machine after a call.
#[derive(Clone, Debug, PartialEq)]
pub struct Seen {
    pub phase: Phase,
    pub method: PairingMethod,
    pub level: SecurityLevel,
    pub bond: Option<BondInformation>,
    pub peer: Address,
}

impl Seen {
    pub fn of(pairing: &Pairing) -> Self {
        Self {
            phase: view::phase(pairing),
            method: view::method(pairing),
            level: pairing.security_level(),
            bond: pairing.bond_information().cloned(),
            peer: pairing.peer_address(),
        }
    }

    /// The same machine after a failure: Error, no encryption, all else as it was.
    pub fn failed(&self, error: Error) -> Self {
        Self {
            phase: Phase {
                name: "Error",
                error: Some(error),
                round: None,
                held: None,
            },
            level: SecurityLevel::NoEncryption,
            ..self.clone()
        }
    }

    pub fn finished(&self) -> bool {
        matches!(self.phase.name, "Success" | "Error")
    }

    fn parts(&self) -> String {
        let state = match &self.phase.error {
            Some(error) => format!("Error:{}", numbered(error)),
            None => self.phase.name.to_string(),
        };
        let method = method_name(self.method, "PassKeyEntry:");
        let round = self.phase.round.map_or("-".into(), |r| r.to_string());
        let held = self
            .phase
            .held
            .map_or("-".into(), |h| u8::from(h).to_string());
        let bond = self.bond.as_ref().map_or("-".into(), bond_values);
        let peer = hex(&self.peer.to_bytes());
        format!(
            "state={state} method={method} round={round} held={held} level={:?} bond={bond} peer={peer} question=-",
            self.level
        )
    }
}

/// What a call gave, apart from the machine after it, as it stands in a line.
pub struct Parts {
    pub answer: String,
    pub frames: String,
    pub events: String,
    pub action: String,
}

impl Parts {
    /// A call that gave its answer and nothing else.
    pub fn bare(answer: &str) -> Self {
        Self {
            answer: answer.into(),
            frames: "-".into(),
            events: "-".into(),
            action: "-".into(),
        }
    }

    pub fn refused(number: u8) -> Self {
        let name = ["Finished", "OutboxShort", "PasskeyRange"][usize::from(number) - 1];
        Self::bare(&format!("refused:{number}:{name}"))
    }

    /// A failure as 01 has it: PairingFailed last, perhaps after BondLost.
    pub fn failed(error: &Error, bond_lost: bool) -> Self {
        let before = if bond_lost { "BondLost," } else { "" };
        Self {
            events: format!("{before}PairingFailed:{}", numbered(error)),
            ..Self::bare(&format!("failed:{}", numbered(error)))
        }
    }

    /// The crate's own answer in 01's numbers.
    pub fn of(outcome: &Outcome, seen: &Seen) -> Self {
        Self {
            answer: match &outcome.answer {
                Ok(()) => "taken".into(),
                Err(error) => format!("failed:{}", numbered(error)),
            },
            frames: joined(outcome.frames.iter().map(|frame| hex(frame))),
            events: joined(outcome.events.iter().map(|event| event_part(event, seen))),
            action: joined(outcome.actions.iter().map(action_part)),
        }
    }

    pub fn line(&self, kind: &str, seen: &Seen) -> String {
        format!(
            "{kind} answer={} frames={} events={} action={} {}",
            self.answer,
            self.frames,
            self.events,
            self.action,
            seen.parts()
        )
    }

    /// The two bytes of an answer record that tell this answer.
    pub fn told(&self) -> (u8, u8) {
        let mut words = self.answer.split(':');
        let kind = match words.next() {
            Some("failed") => 1,
            Some("refused") => 2,
            _ => 0,
        };
        let number = words.next().map_or(0, |n| n.parse().unwrap_or(0));
        (kind, number)
    }
}

/// 01's number of an error of the crate.
pub fn number(error: &Error) -> u8 {
    match error {
        Error::InvalidState => 16,
        Error::InvalidValue => 17,
        Error::Timeout => 18,
        Error::OutOfMemory => 0,
        Error::Security(reason) => 32 + u8::from(*reason),
    }
}

fn numbered(error: &Error) -> String {
    let number = number(error);
    let name = match number {
        16 => "InvalidState",
        17 => "InvalidValue",
        18 => "Timeout",
        33 => "PasskeyEntryFailed",
        35 => "AuthenticationRequirements",
        36 => "ConfirmValueFailed",
        38 => "EncryptionKeySize",
        42 => "InvalidParameters",
        43 => "DHKeyCheckFailed",
        44 => "NumericComparisonFailed",
        47 => "KeyRejected",
        _ => "not-in-01",
    };
    format!("{number}:{name}")
}

fn event_part(event: &ConnectionEvent, seen: &Seen) -> String {
    match event {
        ConnectionEvent::BondLost => "BondLost".into(),
        ConnectionEvent::OobRequest => "OobRequest".into(),
        ConnectionEvent::PassKeyDisplay(key) => format!("PassKeyDisplay:{}", key.value()),
        ConnectionEvent::PassKeyInput => "PassKeyInput".into(),
        ConnectionEvent::PassKeyConfirm(key) => format!("PassKeyConfirm:{}", key.value()),
        ConnectionEvent::PairingComplete {
            security_level,
            bond,
        } => {
            let bond = match bond {
                None => "-",
                Some(_) if *bond == seen.bond => "bond",
                Some(_) => "another-bond",
            };
            format!("PairingComplete:{security_level:?}:{bond}")
        }
        ConnectionEvent::PairingFailed(error) => format!("PairingFailed:{}", numbered(error)),
    }
}

fn action_part(action: &Action) -> String {
    match action {
        Action::Encrypt(bond) => format!(
            "EnableEncryption:{}:{:?}",
            hex(&bond.ltk.0.to_be_bytes()),
            bond.security_level
        ),
        Action::StoreBond(bond) => format!("StoreBond:{}", bond_values(bond)),
        Action::EncryptBonded(bond) => format!("EncryptBonded:{}", bond_values(bond)),
    }
}

fn bond_values(bond: &BondInformation) -> String {
    format!(
        "{}:{:?}:{}:{}",
        hex(&bond.ltk.0.to_be_bytes()),
        bond.security_level,
        hex(&bond.identity.addr.to_bytes()),
        hex(&irk(bond).to_be_bytes())
    )
}

fn joined(parts: impl Iterator<Item = String>) -> String {
    let parts: Vec<String> = parts.collect();
    if parts.is_empty() {
        "-".into()
    } else {
        parts.join(",")
    }
}

pub fn hex(bytes: &[u8]) -> String {
    bytes.iter().map(|byte| format!("{byte:02x}")).collect()
}
