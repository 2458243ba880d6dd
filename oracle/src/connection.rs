//! Stands in for the crate's connection.rs, which needs the whole host: the security level,
//! and of the connection events those that a pairing raises.

use crate::security_manager::PassKey;
use crate::{BondInformation, Error};

#[derive(Clone, Copy, Debug, Eq, PartialEq)]
pub enum SecurityLevel {
    NoEncryption,
    Encrypted,
    EncryptedAuthenticated,
}

#[derive(Debug, PartialEq)]
pub enum ConnectionEvent {
    BondLost,
    OobRequest,
    PassKeyDisplay(PassKey),
    PassKeyInput,
    PassKeyConfirm(PassKey),
    PairingComplete {
        security_level: SecurityLevel,
        bond: Option<BondInformation>,
    },
    PairingFailed(Error),
}
