//! The known differences between 01 and the crate, each with its tag: docs/DIFFERENCES.md as a program.
//! For a call it says which one applies, what 01 answers, and what the crate has to do for the list to be honest.

use crate::harness::Action;
use crate::runs::account::Account;
use crate::runs::calls::{Call, Input, Opening};
use crate::runs::lines::{number, Seen};
use crate::runs::twin::{Outcome, Twin};
use crate::security_manager::types::{Command, Reason};
use crate::Error;

pub struct Mark {
    pub tag: &'static str,
    pub says: Says,
    pub does: Does,
}

/// What 01 answers.
pub enum Says {
    Refused(u8),
    Failed(Error),
    /// What the crate answers to this other input.
    As(Input),
    /// What the crate answers, without its action.
    NoAction,
    /// What the crate answers to another nonce, with what comes of a nonce of zero in its frame.
    ZeroNonce,
}

/// What the crate does.
pub enum Does {
    Stops,
    Ignores,
    /// It holds these octets now.
    Holds(Vec<u8>),
    Fails(Error),
    /// What it does for this other input.
    As(Input),
    EncryptsBonded,
    /// It raises its last event again, or goes from Success to Error.
    GoesOn,
    /// The call cannot be put to its machine, or lies outside the domain of the comparison.
    NotAsked,
}

/// Every tag, in the order of docs/DIFFERENCES.md.
pub const TAGS: [&str; 17] = [
    "seven-octets",
    "key-size",
    "keypress",
    "pairing-failed",
    "event-elsewhere",
    "cancel-input",
    "second-confirm",
    "bonded-link-action",
    "after-end",
    "empty-command",
    "unknown-code",
    "panic-key-length",
    "panic-address-length",
    "panic-failed-empty",
    "panic-zero-nonce",
    "r2",
    "r3",
];

const PASSKEYS: u32 = 1_000_000;
const OUTBOX: u16 = 90;

fn mark(tag: &'static str, says: Says, does: Does) -> Option<Mark> {
    Some(Mark { tag, says, does })
}

fn security(reason: Reason) -> Error {
    Error::Security(reason)
}

/// 01's refusal of a start: R2, then R3.
pub fn start_refusal(opening: &Opening) -> Option<(&'static str, u8)> {
    if opening.start != 0 && opening.outbox < OUTBOX {
        Some(("r2", 2))
    } else if opening.passkey.is_some_and(|p| p >= PASSKEYS) {
        Some(("r3", 3))
    } else {
        None
    }
}

/// The known difference that this call meets in this state, if any.
pub fn known(seen: &Seen, opening: &Opening, account: &Account, call: &Call) -> Option<Mark> {
    let found = refusal(seen, account, call).or_else(|| match &call.input {
        Input::Command(command) => of_command(seen, command),
        event => of_event(seen, opening, event),
    });
    if found.is_none() && call.supplied.nonce == 0 && account.reads_nonce(seen, &call.input) {
        return mark("panic-zero-nonce", Says::ZeroNonce, Does::Stops);
    }
    found
}

fn refusal(seen: &Seen, account: &Account, call: &Call) -> Option<Mark> {
    if seen.finished() {
        let asked = match &call.input {
            Input::Command(c) => c.first().is_some_and(|c| Command::try_from(*c).is_ok()),
            _ => true,
        };
        let stops = matches!(&call.input, Input::Command(c) if c == &[0x05]);
        let does = match (asked, stops) {
            (false, _) => Does::NotAsked,
            (true, true) => Does::Stops,
            (true, false) => Does::GoesOn,
        };
        return mark("after-end", Says::Refused(1), does);
    }
    if call.outbox < OUTBOX {
        return mark("r2", Says::Refused(2), Does::NotAsked);
    }
    let typed = matches!(call.input, Input::PassKeyInput(p) if p >= PASSKEYS);
    let drawn = call.supplied.passkey >= PASSKEYS && account.reads_passkey(seen, &call.input);
    if typed || drawn {
        return mark("r3", Says::Refused(3), Does::NotAsked);
    }
    None
}

fn of_command(seen: &Seen, command: &[u8]) -> Option<Mark> {
    let invalid_state = || Says::Failed(Error::InvalidState);
    let invalid_parameters = || Says::Failed(security(Reason::InvalidParameters));
    let Some((code, body)) = command.split_first() else {
        return mark("empty-command", invalid_parameters(), Does::NotAsked);
    };
    match (seen.phase.name, code) {
        (_, 0x0e) => mark("keypress", invalid_state(), Does::Ignores),
        (_, 0x05) if body.is_empty() => mark("panic-failed-empty", invalid_state(), Does::Stops),
        (_, 0x05) => {
            let reason = Reason::try_from(body[0]).unwrap_or(Reason::UnspecifiedReason);
            let does = Does::Fails(security(reason));
            mark("pairing-failed", invalid_state(), does)
        }
        (_, 0x00 | 0x0f..) => mark("unknown-code", invalid_state(), Does::NotAsked),
        ("WaitingPairingRequest", 0x01) => of_request(body),
        ("WaitingPublicKey", 0x0c) if body.len() != 64 => {
            mark("panic-key-length", invalid_parameters(), Does::Stops)
        }
        ("WaitingPassKeyInput", 0x03) if seen.phase.held == Some(true) => {
            let does = if body.len() == 16 {
                Does::Holds(body.to_vec())
            } else {
                Does::Fails(Error::InvalidValue)
            };
            mark("second-confirm", invalid_state(), does)
        }
        // The crate looks at the type first, so that a short payload of a wrong type only fails.
        ("WaitingIdentitityAddressInformation", 0x09)
            if body.len() < 7 && body.first().is_none_or(|kind| *kind < 2) =>
        {
            let says = Says::Failed(Error::InvalidValue);
            mark("panic-address-length", says, Does::Stops)
        }
        _ => None,
    }
}

/// 01: length, IO and OOB (42), secure connections (35), key size below 16 (38). The crate reads the first six of
/// more octets, and sizes outside 7 to 16 fail there with the length.
fn of_request(body: &[u8]) -> Option<Mark> {
    let invalid = security(Reason::InvalidParameters);
    if body.len() < 6 || body[0] > 4 || body[1] > 1 {
        return None;
    }
    let good_size = (7..=16).contains(&body[3]);
    if body.len() > 6 {
        let six = [&[0x01], &body[..6]].concat();
        let does = Does::As(Input::Command(six));
        return mark("seven-octets", Says::Failed(invalid), does).filter(|_| good_size);
    }
    if good_size {
        return None;
    }
    let says = if body[2] & 0x08 == 0 {
        Says::Failed(security(Reason::AuthenticationRequirements))
    } else if body[3] < 16 {
        Says::Failed(security(Reason::EncryptionKeySize))
    } else {
        let mut sixteen = [&[0x01], body].concat();
        sixteen[4] = 16;
        Says::As(Input::Command(sixteen))
    };
    mark("key-size", says, Does::Fails(invalid))
}

fn of_event(seen: &Seen, opening: &Opening, event: &Input) -> Option<Mark> {
    let elsewhere = || {
        let says = Says::Failed(Error::InvalidState);
        mark("event-elsewhere", says, Does::Ignores)
    };
    match (seen.phase.name, event) {
        ("WaitingPairingRequest", Input::LinkEncryptedResult(true)) if opening.known => {
            mark("bonded-link-action", Says::NoAction, Does::EncryptsBonded)
        }
        (_, Input::LinkEncryptedResult(_) | Input::OobDataReceived(_)) => None,
        ("WaitingNumericComparisonResult", Input::PassKeyConfirm | Input::PassKeyCancel) => None,
        ("WaitingPassKeyInput", Input::PassKeyInput(_)) => None,
        ("WaitingPassKeyInput", Input::PassKeyCancel) => {
            let says = Says::Failed(security(Reason::PasskeyEntryFailed));
            mark("cancel-input", says, Does::Ignores)
        }
        _ => elsewhere(),
    }
}

/// Whether the crate does what the list says, tried on a copy of its machine; None where it cannot be tried.
pub fn honest(mark: &Mark, opening: &Opening, twin: &Twin, call: &Call) -> Option<bool> {
    if matches!(mark.does, Does::NotAsked) {
        return None;
    }
    let before = twin.seen();
    let mut tried = twin.copy();
    let outcome = tried.take(&call.input, &call.supplied);
    let Some(outcome) = outcome else {
        return Some(matches!(mark.does, Does::Stops));
    };
    let ignored = outcome.nothing() && tried.seen() == before;
    Some(match &mark.does {
        Does::Stops | Does::NotAsked => false,
        Does::Ignores => ignored,
        Does::Holds(octets) => ignored && tried.held().as_ref().is_some_and(|h| h == &octets[..]),
        Does::Fails(error) => outcome.answer.as_ref() == Err(error) && outcome.frames.is_empty(),
        Does::As(other) => {
            let mut second = twin.copy();
            let same = second.take(other, &call.supplied) == Some(outcome);
            same && second.seen() == tried.seen()
        }
        Does::EncryptsBonded => outcome.actions == [Action::EncryptBonded(opening.bond.clone())],
        Does::GoesOn => goes_on(&before, &call.input, &outcome, &tried.seen()),
    })
}

/// After the end: from Error it fails again; from Success it fails, or ignores the input and reports Success once more.
fn goes_on(before: &Seen, input: &Input, outcome: &Outcome, after: &Seen) -> bool {
    let ignored = match input {
        Input::Command(command) => command[0] == 0x0e,
        Input::PassKeyConfirm | Input::PassKeyCancel | Input::PassKeyInput(_) => true,
        _ => false,
    };
    let reported = outcome.events.len();
    if !ignored {
        let new = outcome.answer.as_ref().err().map_or(0, number);
        return after.phase.name == "Error" && new != 0 && reported == 1;
    }
    let again = before.phase.name == "Error" || before.bond.is_some();
    let stored = outcome
        .actions
        .iter()
        .all(|a| matches!(a, Action::StoreBond(_)));
    after == before && reported == usize::from(again) && stored && outcome.frames.is_empty()
}
