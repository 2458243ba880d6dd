//! Stands in for the missing pairing/legacy_peripheral.rs: central.rs's machine that cannot be made.

pub use super::central::Pairing;

impl Pairing {
    pub fn new() -> Self {
        Self::new_idle()
    }
}
