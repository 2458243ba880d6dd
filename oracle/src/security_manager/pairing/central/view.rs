//! Looks into the crate's pairing machine. A module below `pairing` may read its private fields, so the text needs no change.

use super::super::{peripheral, Pairing, PairingData, State};
use super::PairingMethod;
use crate::Error;

/// What a line shows of the machine's state.
#[derive(Clone, Debug, PartialEq)]
pub(crate) struct Phase {
    pub name: &'static str,
    pub error: Option<Error>,
    pub round: Option<i32>,
    pub held: Option<bool>,
}

pub(crate) fn phase(pairing: &Pairing) -> Phase {
    use peripheral::Pairing as P;
    let named = |name| Phase {
        name,
        error: None,
        round: None,
        held: None,
    };
    match machine(pairing) {
        P::WaitingPairingRequest => named("WaitingPairingRequest"),
        P::WaitingPublicKey => named("WaitingPublicKey"),
        P::WaitingNumericComparisonRandom(_) => named("WaitingNumericComparisonRandom"),
        P::WaitingNumericComparisonResult { ea, .. } => Phase {
            held: Some(ea.is_some()),
            ..named("WaitingNumericComparisonResult")
        },
        P::WaitingPassKeyInput { confirm_bytes, .. } => Phase {
            held: Some(confirm_bytes.is_some()),
            ..named("WaitingPassKeyInput")
        },
        P::WaitingPassKeyEntryConfirm { round, .. } => Phase {
            round: Some(*round),
            ..named("WaitingPassKeyEntryConfirm")
        },
        P::WaitingPassKeyEntryRandom { round, .. } => Phase {
            round: Some(*round),
            ..named("WaitingPassKeyEntryRandom")
        },
        other => after_methods(other, named),
    }
}

fn after_methods(machine: &peripheral::Pairing, named: impl Fn(&'static str) -> Phase) -> Phase {
    use peripheral::Pairing as P;
    match machine {
        P::WaitingOobData(_) => named("WaitingOobData"),
        P::WaitingOobRandom(_) => named("WaitingOobRandom"),
        P::WaitingDHKeyEa(_) => named("WaitingDHKeyEa"),
        P::WaitingLinkEncrypted => named("WaitingLinkEncrypted"),
        P::WaitingIdentitityInformation => named("WaitingIdentitityInformation"),
        P::WaitingIdentitityAddressInformation => named("WaitingIdentitityAddressInformation"),
        P::Success => named("Success"),
        P::Error(error) => Phase {
            error: Some(error.clone()),
            ..named("Error")
        },
        _ => unreachable!("named before"),
    }
}

pub(crate) fn method(pairing: &Pairing) -> PairingMethod {
    pairing.pairing_data.pairing_method
}

/// The payload that is held for the user's word.
pub(crate) fn held(pairing: &Pairing) -> Option<[u8; 16]> {
    match machine(pairing) {
        peripheral::Pairing::WaitingNumericComparisonResult { ea, .. } => *ea,
        peripheral::Pairing::WaitingPassKeyInput { confirm_bytes, .. } => *confirm_bytes,
        _ => None,
    }
}

/// A second machine in the same state.
pub(crate) fn copy(pairing: &Pairing) -> Pairing {
    let from = &pairing.pairing_data;
    Pairing {
        pairing_data: PairingData {
            local_address: from.local_address,
            peer_address: from.peer_address,
            local_features: from.local_features,
            peer_features: from.peer_features,
            pairing_method: from.pairing_method,
            timeout_at: from.timeout_at,
            bond_information: from.bond_information.clone(),
        },
        state: State::Peripheral(machine(pairing).clone()),
    }
}

fn machine(pairing: &Pairing) -> &peripheral::Pairing {
    match &pairing.state {
        State::Peripheral(machine) => machine,
        _ => unreachable!("the oracle makes responders alone"),
    }
}
