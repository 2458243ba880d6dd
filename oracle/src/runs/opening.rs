//! What a run begins with: the box, the pad and the plan of the run.

use bt_hci::param::{AddrKind, BdAddr};

use crate::connection::SecurityLevel;
use crate::harness::Script;
use crate::runs::calls::Opening;
use crate::runs::coverage::{INPUTS, STATES};
use crate::runs::dice::Dice;
use crate::security_manager::crypto::SecretKey;
use crate::{
    Address, BondInformation, Identity, IdentityResolvingKey, IoCapabilities, LongTermKey,
};

/// The method that a run is made for; `Any` leaves it to the dice.
#[derive(Clone, Copy, PartialEq)]
pub enum Shape {
    Any,
    JustWorks,
    NumericComparison,
    WeDisplay,
    PadDisplays,
    BothInput,
    OutOfBand,
}

pub struct Plan {
    pub shape: Shape,
    /// A state, and the input that it has to meet; until then the run has no odd call.
    pub target: Option<(&'static str, &'static str)>,
    /// A state before which the run has no odd call.
    pub calm: Option<&'static str>,
    /// Of the states of passkey entry, the first round that will do.
    pub round: i32,
    /// Of the states that can hold a payload, whether one has to be held.
    pub held: bool,
    /// Odd calls among a thousand.
    pub odd: u64,
    /// Calls after the end.
    pub after: u64,
}

impl Plan {
    /// Of three runs one has to meet a pair of state and input, each pair in turn; one is odd from some state on; one is thrown.
    pub fn new(number: u64, dice: &mut Dice) -> Self {
        let pair = number as usize / 3 % (STATES.len() * INPUTS.len());
        let (state, input) = (pair / INPUTS.len(), pair % INPUTS.len());
        let target = (number % 3 == 0).then_some((STATES[state], INPUTS[input]));
        let calm = (number % 3 == 1).then(|| dice.pick(&STATES[..13]));
        let shape = match target.map(|(state, _)| state).or(calm) {
            Some(state) => shape_for(state, dice),
            None => any_shape(dice),
        };
        let after = if dice.chance(250) {
            1 + dice.below(4)
        } else {
            0
        };
        Self {
            shape,
            target,
            calm,
            round: dice.below(20) as i32 * i32::from(dice.chance(200)),
            held: dice.chance(500),
            odd: if calm.is_some() {
                500
            } else {
                dice.pick(&[0, 0, 10, 40, 150, 400])
            },
            after,
        }
    }

    /// Whether nothing odd may stand in the way to some state.
    pub fn leads(&self) -> bool {
        self.target.is_some() || self.calm.is_some()
    }

    /// Whether start and request have to be good.
    pub fn clean(&self) -> bool {
        self.leads() || self.odd == 0
    }
}

fn any_shape(dice: &mut Dice) -> Shape {
    use Shape::*;
    dice.pick(&[
        Any,
        Any,
        Any,
        Any,
        JustWorks,
        JustWorks,
        NumericComparison,
        NumericComparison,
        NumericComparison,
        WeDisplay,
        PadDisplays,
        PadDisplays,
        BothInput,
        OutOfBand,
        OutOfBand,
        OutOfBand,
    ])
}

/// A method by which a run gets to this state.
fn shape_for(state: &str, dice: &mut Dice) -> Shape {
    use Shape::*;
    match state {
        "WaitingNumericComparisonRandom" => dice.pick(&[JustWorks, NumericComparison]),
        "WaitingNumericComparisonResult" => NumericComparison,
        "WaitingPassKeyInput" => dice.pick(&[PadDisplays, BothInput]),
        "WaitingPassKeyEntryConfirm" | "WaitingPassKeyEntryRandom" => {
            dice.pick(&[WeDisplay, PadDisplays, BothInput])
        }
        "WaitingOobData" | "WaitingOobRandom" => OutOfBand,
        "WaitingPairingRequest" | "WaitingPublicKey" | "Error" => Any,
        _ => dice.pick(&[
            JustWorks,
            NumericComparison,
            OutOfBand,
            WeDisplay,
            PadDisplays,
            BothInput,
        ]),
    }
}

/// Our IO, peer IO, our OOB, peer OOB, peer MITM.
pub type Sides = (u8, u8, bool, bool, bool);

pub fn sides(shape: Shape, dice: &mut Dice) -> Sides {
    let (own, peer) = (dice.below(5) as u8, dice.below(5) as u8);
    let mitm = dice.chance(600);
    let both = [dice.pick(&[1, 4]), dice.pick(&[1, 4])];
    match shape {
        Shape::Any => (own, peer, dice.chance(80), dice.chance(80), mitm),
        Shape::JustWorks => (3, peer, false, false, mitm),
        Shape::NumericComparison => (both[0], both[1], false, false, mitm),
        Shape::WeDisplay => (dice.pick(&[0, 1, 4]), 2, false, false, mitm),
        Shape::PadDisplays => (2, dice.pick(&[0, 1, 4]), false, false, mitm),
        Shape::BothInput => (2, 2, false, false, mitm),
        Shape::OutOfBand => {
            let flags = dice.pick(&[(true, true), (true, false), (false, true)]);
            (own, peer, flags.0, flags.1, mitm)
        }
    }
}

pub fn opening(plan: &Plan, sides: Sides, dice: &mut Dice) -> Opening {
    let secret_bytes: [u8; 96] = dice.bytes();
    let short = !plan.clean() && dice.chance(20);
    let peer = address(dice);
    Opening {
        start: dice.pick(&[0, 0, 1, 2]),
        outbox: outbox(short, dice),
        io: IoCapabilities::ALL[usize::from(sides.0)],
        oob: sides.2,
        bonding: dice.chance(700),
        passkey: configured(plan, dice),
        secret: SecretKey::new(&mut Script::new(secret_bytes.to_vec())),
        secret_bytes,
        irk: if dice.chance(300) { 0 } else { dice.big() },
        own: address(dice),
        identity: address(dice),
        peer,
        known: dice.chance(400),
        bond: BondInformation {
            ltk: LongTermKey::new(dice.big()),
            identity: Identity {
                addr: if dice.chance(500) {
                    peer
                } else {
                    address(dice)
                },
                irk: IdentityResolvingKey::new(if dice.chance(300) { 0 } else { dice.big() }),
            },
            is_bonded: true,
            security_level: dice.pick(&[
                SecurityLevel::NoEncryption,
                SecurityLevel::Encrypted,
                SecurityLevel::EncryptedAuthenticated,
            ]),
        },
    }
}

fn configured(plan: &Plan, dice: &mut Dice) -> Option<u32> {
    let above = !plan.clean() && dice.chance(30);
    if above {
        return Some(above_range(dice));
    }
    dice.chance(250).then(|| passkey(dice))
}

/// A passkey in range, its ends included.
pub fn passkey(dice: &mut Dice) -> u32 {
    let thrown = dice.below(1_000_000) as u32;
    dice.pick(&[0, 5, 999_999, thrown, thrown, thrown, thrown])
}

pub fn above_range(dice: &mut Dice) -> u32 {
    let thrown = 1_000_000 + dice.below(u64::from(u32::MAX) - 999_999) as u32;
    dice.pick(&[1_000_000, u32::MAX, thrown])
}

pub fn outbox(short: bool, dice: &mut Dice) -> u16 {
    if short {
        let thrown = dice.below(90) as u16;
        dice.pick(&[0, 89, thrown])
    } else {
        let thrown = 90 + dice.below(423) as u16;
        dice.pick(&[90, 90, 512, thrown])
    }
}

fn address(dice: &mut Dice) -> Address {
    let kind = dice.pick(&[AddrKind::PUBLIC, AddrKind::RANDOM]);
    Address::new(kind, BdAddr::new(dice.bytes()))
}
