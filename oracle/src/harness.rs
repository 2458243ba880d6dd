//! What the crate's pairing machine needs around it: a box with given settings that records
//! what it is asked to do, a packet pool that never runs out and a scripted random source.

use bt_hci::param::ConnHandle;
use rand_core::{CryptoRng, RngCore};

use crate::connection::{ConnectionEvent, SecurityLevel};
use crate::security_manager::crypto::{PublicKey, SecretKey};
use crate::security_manager::pairing::PairingOps;
use crate::security_manager::types::BondingFlag;
use crate::security_manager::TxPacket;
use crate::{Address, BondInformation, Error, Identity, LongTermKey, Packet, PacketPool};

#[derive(Clone)]
pub struct Setup {
    pub peer_address: Address,
    pub identity_address: Address,
    /// Least significant byte first; all zeros means none.
    pub irk: [u8; 16],
    pub bonding: bool,
    pub oob_available: bool,
    pub passkey: Option<u32>,
    pub bond: Option<BondInformation>,
    pub secret_key: SecretKey,
}

#[derive(Debug, PartialEq)]
pub enum Action {
    /// Encrypt the link with a fresh key.
    Encrypt(BondInformation),
    /// Encrypt the link with the key of the known bond.
    EncryptBonded(BondInformation),
    StoreBond(BondInformation),
}

pub struct Ops {
    setup: Setup,
    public_key: PublicKey,
    pub sent: Vec<Vec<u8>>,
    pub events: Vec<ConnectionEvent>,
    pub actions: Vec<Action>,
}

impl Ops {
    pub fn new(setup: Setup) -> Self {
        Self {
            public_key: setup.secret_key.public_key(),
            setup,
            sent: Vec::new(),
            events: Vec::new(),
            actions: Vec::new(),
        }
    }

    /// The same box with nothing recorded yet.
    pub fn again(&self) -> Self {
        Self::new(self.setup.clone())
    }
}

impl PairingOps<Pool> for Ops {
    fn try_send_packet(&mut self, packet: TxPacket<Pool>) -> Result<(), Error> {
        self.sent.push(packet.into_pdu().as_ref().to_vec());
        Ok(())
    }

    fn find_bond(&self) -> Option<BondInformation> {
        self.setup.bond.clone()
    }

    fn try_enable_bonded_encryption(&mut self) -> Result<Option<BondInformation>, Error> {
        let bond = self.find_bond();
        self.actions.extend(bond.clone().map(Action::EncryptBonded));
        Ok(bond)
    }

    fn try_enable_encryption(
        &mut self,
        ltk: &LongTermKey,
        security_level: SecurityLevel,
        is_bonded: bool,
    ) -> Result<BondInformation, Error> {
        let bond = BondInformation {
            ltk: *ltk,
            identity: Identity {
                addr: self.setup.peer_address,
                irk: None,
            },
            is_bonded,
            security_level,
        };
        self.actions.push(Action::Encrypt(bond.clone()));
        Ok(bond)
    }

    fn try_update_bond_information(&mut self, bond: &BondInformation) -> Result<(), Error> {
        self.actions.push(Action::StoreBond(bond.clone()));
        Ok(())
    }

    fn connection_handle(&mut self) -> ConnHandle {
        ConnHandle(0)
    }

    fn try_send_connection_event(&mut self, event: ConnectionEvent) -> Result<(), Error> {
        self.events.push(event);
        Ok(())
    }

    fn bonding_flag(&self) -> BondingFlag {
        if self.setup.bonding {
            BondingFlag::Bonding
        } else {
            BondingFlag::NoBonding
        }
    }

    fn oob_available(&self) -> bool {
        self.setup.oob_available
    }

    fn passkey(&self) -> Option<u32> {
        self.setup.passkey
    }

    fn secret_key(&self) -> &SecretKey {
        &self.setup.secret_key
    }

    fn public_key(&self) -> &PublicKey {
        &self.public_key
    }

    fn local_irk(&self) -> [u8; 16] {
        self.setup.irk
    }

    fn local_identity_address(&self) -> Result<Address, Error> {
        Ok(self.setup.identity_address)
    }
}

/// The longest frame, a public key: header 5 and payload 64.
const LONGEST_FRAME: usize = 69;

impl Packet for [u8; LONGEST_FRAME] {}

pub struct Pool;

impl PacketPool for Pool {
    type Packet = [u8; LONGEST_FRAME];

    fn allocate() -> Option<Self::Packet> {
        Some([0; LONGEST_FRAME])
    }
}

/// Hands out given bytes in order, and stops the run when it is asked for more than it holds.
pub struct Script {
    bytes: std::vec::IntoIter<u8>,
}

impl Script {
    pub fn new(bytes: Vec<u8>) -> Self {
        Self {
            bytes: bytes.into_iter(),
        }
    }
}

impl RngCore for Script {
    fn next_u32(&mut self) -> u32 {
        let mut word = [0; 4];
        self.fill_bytes(&mut word);
        u32::from_le_bytes(word)
    }

    fn fill_bytes(&mut self, out: &mut [u8]) {
        for byte in out {
            *byte = self
                .bytes
                .next()
                .expect("the script of random bytes is used up");
        }
    }
}

impl CryptoRng for Script {}
