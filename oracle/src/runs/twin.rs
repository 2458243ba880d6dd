//! The crate's responder with its box around it: takes a call, says what came of it.

use std::panic::{catch_unwind, AssertUnwindSafe};

use rand_core::{CryptoRng, RngCore};

use crate::connection::ConnectionEvent;
use crate::harness::{Action, Ops, Pool};
use crate::runs::calls::{Input, Opening, Supplied};
use crate::runs::lines::Seen;
use crate::security_manager::pairing::central::view;
use crate::security_manager::pairing::{Event, OobData, Pairing};
use crate::security_manager::types::Command;
use crate::Error;

pub struct Twin {
    pairing: Pairing,
    ops: Ops,
}

#[derive(Debug, PartialEq)]
pub struct Outcome {
    pub answer: Result<(), Error>,
    pub frames: Vec<Vec<u8>>,
    pub events: Vec<ConnectionEvent>,
    pub actions: Vec<Action>,
}

impl Outcome {
    /// Taken, and nothing came of it.
    pub fn nothing(&self) -> bool {
        self.answer.is_ok()
            && self.frames.is_empty()
            && self.events.is_empty()
            && self.actions.is_empty()
    }
}

impl Twin {
    pub fn start(opening: &Opening) -> (Self, Outcome) {
        let mut ops = Ops::new(opening.harness());
        let pairing = if opening.start == 0 {
            Pairing::new_peripheral(opening.own, opening.peer, opening.io)
        } else {
            let user = opening.start == 1;
            Pairing::initiate_peripheral::<Pool, _>(
                opening.own,
                opening.peer,
                &mut ops,
                opening.io,
                user,
            )
            .expect("nothing fails in the harness")
        };
        let mut twin = Self { pairing, ops };
        let outcome = twin.outcome(Ok(()));
        (twin, outcome)
    }

    /// None where the crate stops.
    pub fn take(&mut self, input: &Input, supplied: &Supplied) -> Option<Outcome> {
        let mut draws = Draws::new(supplied);
        let (pairing, ops) = (&mut self.pairing, &mut self.ops);
        let answer = catch_unwind(AssertUnwindSafe(|| match input {
            Input::Command(bytes) => {
                let command = Command::try_from(bytes[0]).expect("a code that the crate knows");
                pairing.handle_l2cap_command(command, &bytes[1..], ops, &mut draws)
            }
            event => pairing.handle_event(event_of(event), ops, &mut draws),
        }));
        answer.ok().map(|answer| self.outcome(answer))
    }

    pub fn mark_timeout(&mut self) {
        self.pairing.mark_timeout();
    }

    pub fn seen(&self) -> Seen {
        Seen::of(&self.pairing)
    }

    pub fn held(&self) -> Option<[u8; 16]> {
        view::held(&self.pairing)
    }

    /// A second machine in the same state, with a box of the same settings.
    pub fn copy(&self) -> Self {
        Self {
            pairing: view::copy(&self.pairing),
            ops: self.ops.again(),
        }
    }

    fn outcome(&mut self, answer: Result<(), Error>) -> Outcome {
        Outcome {
            answer,
            frames: std::mem::take(&mut self.ops.sent),
            events: std::mem::take(&mut self.ops.events),
            actions: std::mem::take(&mut self.ops.actions),
        }
    }
}

/// The crate has out-of-band values least significant byte first. Nothing reads the local confirm.
fn event_of(input: &Input) -> Event {
    match input {
        Input::LinkEncryptedResult(good) => Event::LinkEncryptedResult(*good),
        Input::PassKeyConfirm => Event::PassKeyConfirm,
        Input::PassKeyCancel => Event::PassKeyCancel,
        Input::PassKeyInput(passkey) => Event::PassKeyInput(*passkey),
        Input::OobDataReceived(oob) => Event::OobDataReceived {
            local: OobData {
                random: oob.own.to_le_bytes(),
                confirm: [0xaa; 16],
            },
            peer: OobData {
                random: oob.peer.to_le_bytes(),
                confirm: oob.confirm.to_le_bytes(),
            },
        },
        Input::Command(_) => unreachable!("a command is no event"),
    }
}

/// The call's drawn values, each of which can be drawn once.
struct Draws {
    nonce: Option<u128>,
    passkey: Option<u32>,
}

impl Draws {
    fn new(supplied: &Supplied) -> Self {
        Self {
            nonce: Some(supplied.nonce),
            passkey: Some(supplied.passkey),
        }
    }
}

impl RngCore for Draws {
    fn next_u32(&mut self) -> u32 {
        self.passkey.take().expect("one passkey a call")
    }

    fn fill_bytes(&mut self, out: &mut [u8]) {
        let nonce = self.nonce.take().expect("one nonce a call");
        out.copy_from_slice(&nonce.to_ne_bytes());
    }
}

impl CryptoRng for Draws {}
