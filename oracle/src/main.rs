//! Root of the crate in which the crate's own text is compiled, in place of its lib.rs.
//! The first argument names the program to run.

#[macro_use]
mod log;
#[allow(warnings)]
mod codec;
mod connection;
mod host;
mod methods;
#[allow(warnings)]
mod pdu;
mod security_manager;

mod prelude {
    pub use crate::connection::{ConnectionEvent, SecurityLevel};
}

mod types {
    #[allow(warnings)]
    pub mod l2cap;
}

// The legacy chooser is only there with the legacy feature; the machine to compare with only without.
#[cfg(feature = "legacy-pairing")]
mod combinations;
#[cfg(not(feature = "legacy-pairing"))]
mod harness;
#[cfg(not(feature = "legacy-pairing"))]
mod runs;
#[cfg(not(feature = "legacy-pairing"))]
mod samples;
#[cfg(not(feature = "legacy-pairing"))]
mod smoke;

use std::process::ExitCode;

pub use host::{Address, Error, Identity, IoCapabilities, Packet, PacketPool};
pub use security_manager::{BondInformation, IdentityResolvingKey, LongTermKey};

fn main() -> ExitCode {
    match std::env::args().nth(1).as_deref() {
        #[cfg(feature = "legacy-pairing")]
        Some("combinations") => combinations::run(),
        #[cfg(not(feature = "legacy-pairing"))]
        Some("runs") => runs::run(),
        #[cfg(not(feature = "legacy-pairing"))]
        Some("sample") => runs::sample(),
        #[cfg(not(feature = "legacy-pairing"))]
        Some("show") => runs::show(),
        #[cfg(not(feature = "legacy-pairing"))]
        Some("samples") => samples::run(),
        #[cfg(not(feature = "legacy-pairing"))]
        Some("smoke") => smoke::run(),
        _ => {
            eprintln!("oracle: no such program in this variant");
            ExitCode::from(2)
        }
    }
}
