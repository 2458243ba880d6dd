//! Stands in for the missing pairing/central.rs: a machine that cannot be made. Being a module
//! below `pairing`, it is also the door through which our programs reach the private `util` and,
//! by `view`, the machine's private state.

use super::{Input, PairingData};
use crate::Error;

pub(crate) use super::util::{choose_pairing_method, PairingMethod, PassKeyEntryAction};

#[cfg(not(feature = "legacy-pairing"))]
pub(crate) mod view;

/// It has no value, so whatever takes one never runs.
#[derive(Debug)]
pub enum Pairing {}

impl Pairing {
    pub fn new_idle() -> Self {
        unimplemented!("the text has the LESC peripheral only")
    }

    pub fn initiate<O>(
        _: &mut PairingData,
        _: &mut O,
        _user_initiated: bool,
    ) -> Result<Self, Error> {
        Ok(Self::new_idle())
    }

    pub fn result(&self) -> Option<Result<(), Error>> {
        match *self {}
    }

    pub fn is_encrypted(&self) -> bool {
        match *self {}
    }

    pub fn is_waiting_bonded_encryption(&self) -> bool {
        match *self {}
    }

    pub fn mark_timeout(&mut self) {
        match *self {}
    }

    pub(super) fn handle_input<O, R>(
        &mut self,
        _: Input<'_>,
        _: &mut PairingData,
        _: &mut O,
        _: &mut R,
    ) -> Result<(), Error> {
        match *self {}
    }
}
