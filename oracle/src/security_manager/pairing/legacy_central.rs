//! Stands in for the missing pairing/legacy_central.rs: central.rs's machine that cannot be made,
//! and the door to the legacy chooser.

pub use super::central::Pairing;
pub(crate) use super::util::choose_legacy_pairing_method;

impl Pairing {
    pub fn from_lesc_switch(_request: [u8; 7]) -> Self {
        Self::new_idle()
    }
}
