//! The names of the pairing methods, as every program here prints them.

use crate::security_manager::pairing::central::{PairingMethod, PassKeyEntryAction};

/// Passkey entry is named by who displays, behind a word of the caller's.
pub fn method_name(method: PairingMethod, passkey: &str) -> String {
    use PassKeyEntryAction::{Display, Input};
    let name = match method {
        PairingMethod::JustWorks => "JustWorks",
        PairingMethod::NumericComparison => "NumericComparison",
        PairingMethod::OutOfBand => "OutOfBand",
        PairingMethod::PassKeyEntry {
            central,
            peripheral,
        } => {
            let roles = match (central, peripheral) {
                (Display, Input) => "CentralDisplays",
                (Input, Display) => "PeripheralDisplays",
                (Input, Input) => "BothInput",
                (Display, Display) => "BothDisplay",
            };
            return format!("{passkey}{roles}");
        }
    };
    name.to_string()
}
