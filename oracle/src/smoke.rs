//! One request to the crate's responder, sample pairing P1: shows that the machine runs in the
//! harness. Prints the frame it sends.

use std::process::ExitCode;

use bt_hci::param::{AddrKind, BdAddr};

use crate::harness::{Ops, Script, Setup};
use crate::security_manager::crypto::SecretKey;
use crate::security_manager::pairing::Pairing;
use crate::security_manager::types::Command;
use crate::{Address, IoCapabilities};

const LOCAL: Address = Address::new(AddrKind::PUBLIC, BdAddr::new([1; 6]));
const PEER: Address = Address::new(AddrKind::PUBLIC, BdAddr::new([2; 6]));
const REQUEST: [u8; 6] = [0x04, 0x00, 0x0d, 0x10, 0x02, 0x02];
const RESPONSE: [u8; 11] = [
    0x07, 0x00, 0x06, 0x00, 0x02, 0x00, 0x00, 0x0d, 0x10, 0x02, 0x02,
];

pub fn run() -> ExitCode {
    let mut ops = Ops::new(setup());
    let mut pairing = Pairing::new_peripheral(LOCAL, PEER, IoCapabilities::DisplayOnly);
    let answer = pairing.handle_l2cap_command(
        Command::PairingRequest,
        &REQUEST,
        &mut ops,
        &mut Script::new(vec![]),
    );
    for frame in &ops.sent {
        println!("{}", hex(frame));
    }
    let good =
        answer.is_ok() && ops.sent == [RESPONSE] && ops.events.is_empty() && ops.actions.is_empty();
    ExitCode::from(u8::from(!good))
}

fn setup() -> Setup {
    Setup {
        peer_address: PEER,
        identity_address: LOCAL,
        irk: [3; 16],
        bonding: true,
        oob_available: false,
        passkey: None,
        bond: None,
        secret_key: SecretKey::new(&mut Script::new(vec![4; 96])),
    }
}

fn hex(bytes: &[u8]) -> String {
    let bytes: Vec<String> = bytes.iter().map(|byte| format!("{byte:02x}")).collect();
    bytes.join(" ")
}
