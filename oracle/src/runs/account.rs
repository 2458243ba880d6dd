//! The oracle's own account of a pairing: what 01's formulas take, kept apart from the crate's machine, and the
//! answers that they give with the crate's cryptography. So a crate that feeds its formulas otherwise is found.

use crate::runs::calls::{Call, Input, Opening, Supplied};
use crate::runs::dice::Dice;
use crate::runs::lines::Seen;
use crate::security_manager::crypto::{DHKey, IoCap, MacKey, Nonce, PublicKey};
use crate::security_manager::g2_word;
use crate::security_manager::pairing::central::{PairingMethod, PassKeyEntryAction};
use crate::IoCapabilities;

pub struct Account {
    opening: Opening,
    own: PublicKey,
    /// The six octets of the accepted request.
    features: [u8; 6],
    peer: PublicKey,
    dh: Option<DHKey>,
    our_nonce: u128,
    peer_nonce: u128,
    our_secret: u128,
    peer_secret: u128,
    held: Vec<u8>,
}

impl Account {
    pub fn new(opening: &Opening) -> Self {
        Self {
            opening: opening.clone(),
            own: opening.secret.public_key(),
            features: [3, 0, 0, 16, 0, 0],
            peer: PublicKey::from_bytes(&[0; 64]),
            dh: None,
            our_nonce: 0,
            peer_nonce: 0,
            our_secret: 0,
            peer_secret: 0,
            held: vec![],
        }
    }

    /// Our public key as it travels.
    pub fn our_key(&self) -> Vec<u8> {
        let mut key = self.opening.secret_bytes[..64].to_vec();
        key[..32].reverse();
        key[32..].reverse();
        key
    }

    pub fn passkey(&self) -> u32 {
        self.our_secret as u32
    }

    /// f4(our x, peer x, nonce, z).
    fn our_confirm(&self, nonce: u128, z: u8) -> u128 {
        Nonce(nonce).f4(self.own.x(), self.peer.x(), z).0
    }

    /// f4(peer x, our x, nonce, z): what the pad's confirm has to be.
    pub fn peer_confirm(&self, nonce: u128, z: u8) -> u128 {
        Nonce(nonce).f4(self.peer.x(), self.own.x(), z).0
    }

    /// f4(peer x, peer x, random, 0): the confirm beside the pad's out-of-band random.
    pub fn oob_confirm(&self, random: u128) -> u128 {
        Nonce(random).f4(self.peer.x(), self.peer.x(), 0).0
    }

    fn keys(&self) -> Option<(MacKey, u128)> {
        let (peer, own) = (self.opening.peer, self.opening.own);
        let dh = self.dh.as_ref()?;
        let (mac_key, ltk) = dh.f5(Nonce(self.peer_nonce), Nonce(self.our_nonce), peer, own);
        Some((mac_key, ltk.0))
    }

    /// The peer's f6: what the pad's check has to be.
    pub fn peer_check(&self) -> Option<u128> {
        let (mac_key, _) = self.keys()?;
        let [io, oob, auth, ..] = self.features;
        let check = mac_key.f6(
            Nonce(self.peer_nonce),
            Nonce(self.our_nonce),
            self.our_secret,
            IoCap::new(auth, oob == 1, io),
            self.opening.peer,
            self.opening.own,
        );
        Some(check.0)
    }

    /// Our f6, with the IO triple of our response.
    fn our_check(&self, mac_key: &MacKey) -> u128 {
        let opening = &self.opening;
        let mitm = opening.io != IoCapabilities::NoInputNoOutput;
        let auth = 0x08 | u8::from(opening.bonding) | u8::from(mitm) << 2;
        let check = mac_key.f6(
            Nonce(self.our_nonce),
            Nonce(self.peer_nonce),
            self.peer_secret,
            IoCap::new(auth, opening.oob, opening.io.into()),
            opening.own,
            opening.peer,
        );
        check.0
    }

    /// Whether the crate takes the pad's key, and the DH key's octets.
    fn agree(&self, key: &[u8]) -> Option<DHKey> {
        let key = PublicKey::from_bytes(key);
        self.opening.secret.dh_key(key, &self.own)
    }

    /// Whether this call shows a drawn passkey: the public key is good, the passkey is shown here and none is configured.
    pub fn reads_passkey(&self, seen: &Seen, input: &Input) -> bool {
        let shown_here = matches!(
            seen.method,
            PairingMethod::PassKeyEntry {
                peripheral: PassKeyEntryAction::Display,
                ..
            }
        );
        let key = self.key_of(seen, input);
        shown_here && self.opening.passkey.is_none() && key.is_some_and(|k| self.agree(k).is_some())
    }

    fn key_of<'a>(&self, seen: &Seen, input: &'a Input) -> Option<&'a [u8]> {
        match (seen.phase.name, input) {
            ("WaitingPublicKey", Input::Command(c)) if c.len() == 65 && c[0] == 0x0c => {
                Some(&c[1..])
            }
            _ => None,
        }
    }

    /// Whether this call draws a nonce.
    pub fn reads_nonce(&self, seen: &Seen, input: &Input) -> bool {
        let is = |code: u8, length: usize| matches!(input, Input::Command(c) if c.len() == length + 1 && c[0] == code);
        match seen.phase.name {
            "WaitingPublicKey" => {
                let compares = matches!(
                    seen.method,
                    PairingMethod::JustWorks | PairingMethod::NumericComparison
                );
                let key = self.key_of(seen, input);
                compares && key.is_some_and(|k| self.agree(k).is_some())
            }
            "WaitingPassKeyEntryConfirm" => is(0x03, 16),
            "WaitingOobRandom" => is(0x04, 16),
            "WaitingPassKeyInput" => {
                seen.phase.held == Some(true) && matches!(input, Input::PassKeyInput(_))
            }
            _ => false,
        }
    }

    /// Fills in the answers that this call reads; all others stay noise. The drawn values are there already.
    pub fn answer(&self, seen: &Seen, input: &Input, supplied: &mut Supplied) {
        let Input::Command(command) = input else {
            return self.answer_event(seen, input, supplied);
        };
        let (code, body) = (command.first().copied().unwrap_or(0), command.get(1..));
        let body = body.unwrap_or(&[]);
        let value = value_of(body);
        match (seen.phase.name, code, body.len()) {
            ("WaitingPublicKey", 0x0c, 64) => self.answer_key(seen, input, body, supplied),
            ("WaitingNumericComparisonRandom", 0x04, 16) => self.answer_g2(value, seen, supplied),
            ("WaitingPassKeyEntryConfirm", 0x03, 16) => {
                supplied.own_confirm = self.our_confirm(supplied.nonce, z(self.our_secret, seen));
            }
            ("WaitingPassKeyEntryRandom", 0x04, 16) => {
                supplied.peer_confirm = self.peer_confirm(value, z(self.our_secret, seen));
            }
            ("WaitingDHKeyEa", 0x0d, _) => self.answer_check(body, supplied),
            _ => {}
        }
    }

    fn answer_event(&self, seen: &Seen, input: &Input, supplied: &mut Supplied) {
        match (seen.phase.name, input) {
            ("WaitingOobData", Input::OobDataReceived(oob)) => {
                if (oob.peer, oob.confirm) != (0, 0) {
                    supplied.peer_confirm = self.oob_confirm(oob.peer);
                }
            }
            ("WaitingNumericComparisonResult", Input::PassKeyConfirm) => {
                if seen.phase.held == Some(true) {
                    self.answer_check(&self.held, supplied);
                }
            }
            ("WaitingPassKeyInput", Input::PassKeyInput(passkey)) => {
                if seen.phase.held == Some(true) {
                    let z = z(u128::from(*passkey), seen);
                    supplied.own_confirm = self.our_confirm(supplied.nonce, z);
                }
            }
            _ => {}
        }
    }

    fn answer_key(&self, seen: &Seen, input: &Input, key: &[u8], supplied: &mut Supplied) {
        supplied.valid = self.agree(key).is_some();
        if supplied.valid {
            supplied.dh_key = self.opening.shared();
        }
        if self.reads_nonce(seen, input) {
            let (nonce, peer) = (Nonce(supplied.nonce), PublicKey::from_bytes(key));
            supplied.own_confirm = nonce.f4(self.own.x(), peer.x(), 0).0;
        }
    }

    fn answer_g2(&self, peer_nonce: u128, seen: &Seen, supplied: &mut Supplied) {
        if seen.method != PairingMethod::JustWorks {
            supplied.g2 = g2_word(
                self.peer.x(),
                self.own.x(),
                Nonce(peer_nonce),
                Nonce(self.our_nonce),
            );
        }
    }

    /// Our f6 is read only after the peer's was met.
    fn answer_check(&self, check: &[u8], supplied: &mut Supplied) {
        if let (Some((mac_key, ltk)), Some(right)) = (self.keys(), self.peer_check()) {
            supplied.mac_key = key_octets(mac_key);
            supplied.ltk = ltk;
            supplied.peer_check = right;
            if check == right.to_le_bytes() {
                supplied.own_check = self.our_check(&mac_key);
            }
        }
    }

    /// Books a call that did not fail, from the state before it.
    pub fn book(&mut self, seen: &Seen, call: &Call) {
        let Input::Command(command) = &call.input else {
            return self.book_event(seen, call);
        };
        let body = &command[1..];
        let value = value_of(body);
        match seen.phase.name {
            "WaitingPairingRequest" => self.features.copy_from_slice(&body[..6]),
            "WaitingPublicKey" => self.book_key(seen, body, call),
            "WaitingNumericComparisonRandom" | "WaitingPassKeyEntryRandom" => {
                self.peer_nonce = value;
            }
            "WaitingNumericComparisonResult" => self.held = body.to_vec(),
            "WaitingPassKeyEntryConfirm" => self.our_nonce = call.supplied.nonce,
            "WaitingOobRandom" => {
                self.peer_nonce = value;
                self.our_nonce = call.supplied.nonce;
            }
            _ => {}
        }
    }

    fn book_key(&mut self, seen: &Seen, key: &[u8], call: &Call) {
        if self.reads_passkey(seen, &call.input) {
            self.set_passkey(call.supplied.passkey);
        } else if let Some(passkey) = self.opening.passkey {
            if seen.method == shown_here() {
                self.set_passkey(passkey);
            }
        }
        self.our_nonce = if self.reads_nonce(seen, &call.input) {
            call.supplied.nonce
        } else {
            0
        };
        self.dh = self.agree(key);
        self.peer = PublicKey::from_bytes(key);
    }

    fn book_event(&mut self, seen: &Seen, call: &Call) {
        match (seen.phase.name, &call.input) {
            ("WaitingPassKeyInput", Input::PassKeyInput(passkey)) => {
                self.set_passkey(*passkey);
                self.our_nonce = call.supplied.nonce;
            }
            ("WaitingOobData", Input::OobDataReceived(oob)) => {
                // Part H 2.3.5.6.4: a pad without our data reckons with zero.
                self.our_secret = if self.features[1] == 1 { oob.own } else { 0 };
                self.peer_secret = oob.peer;
            }
            _ => {}
        }
    }

    fn set_passkey(&mut self, passkey: u32) {
        self.our_secret = passkey.into();
        self.peer_secret = passkey.into();
    }
}

fn shown_here() -> PairingMethod {
    PairingMethod::PassKeyEntry {
        central: PassKeyEntryAction::Input,
        peripheral: PassKeyEntryAction::Display,
    }
}

/// 0x80 plus the round's bit of the passkey; a passkey still to be typed is for round 0.
pub fn z(passkey: u128, seen: &Seen) -> u8 {
    let round = seen.phase.round.unwrap_or(0);
    0x80 + (passkey >> round & 1) as u8
}

/// A payload of sixteen octets as a number.
pub fn value_of(body: &[u8]) -> u128 {
    body.try_into().map_or(0, u128::from_le_bytes)
}

/// The crate hides the key's octets; it is a transparent wrapper of them, most significant first.
fn key_octets(key: MacKey) -> u128 {
    // SAFETY: MacKey and the Key in it are repr(transparent), and the stand-in's key is [u8; 16].
    u128::from_be_bytes(unsafe { std::mem::transmute::<MacKey, [u8; 16]>(key) })
}

/// Values that no answer fills. One throw gives both confirms: each bit of the one is turned in the other.
pub fn noise(dice: &mut Dice) -> Supplied {
    let mut supplied = Supplied {
        nonce: dice.big(),
        passkey: dice.word() as u32,
        valid: dice.chance(500),
        dh_key: dice.bytes(),
        own_confirm: dice.big(),
        peer_confirm: 0,
        g2: dice.word() as u32,
        mac_key: dice.big(),
        ltk: dice.big(),
        peer_check: dice.big(),
        own_check: dice.big(),
    };
    supplied.peer_confirm = !supplied.own_confirm;
    supplied
}
