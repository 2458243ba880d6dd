//! Prints what the crate's two choosers and its security level say for each of the 400
//! combinations of IO capability, OOB flag and MITM bit on both sides.

use std::fmt;
use std::process::ExitCode;

use crate::methods::method_name;
use crate::security_manager::pairing::central::choose_pairing_method;
use crate::security_manager::pairing::legacy_central::choose_legacy_pairing_method;
use crate::security_manager::types::{AuthReq, BondingFlag, PairingFeatures, UseOutOfBand};
use crate::IoCapabilities;

pub fn run() -> ExitCode {
    for central_io in IoCapabilities::ALL {
        for peripheral_io in IoCapabilities::ALL {
            print_flags(central_io, peripheral_io);
        }
    }
    ExitCode::SUCCESS
}

/// Counts through the four flags, the central's OOB flag changing slowest.
fn print_flags(central_io: IoCapabilities, peripheral_io: IoCapabilities) {
    for flags in 0..16 {
        let flag = |place: u8| flags >> place & 1 != 0;
        let central = Side {
            io: central_io,
            oob: flag(3),
            mitm: flag(1),
        };
        let peripheral = Side {
            io: peripheral_io,
            oob: flag(2),
            mitm: flag(0),
        };
        print_line(&central, &peripheral);
    }
}

fn print_line(central: &Side, peripheral: &Side) {
    let lesc = choose_pairing_method(central.features(), peripheral.features());
    let legacy = choose_legacy_pairing_method(central.features(), peripheral.features());
    println!(
        "central {central} peripheral {peripheral} lesc {} {:?} legacy {} {:?}",
        method_name(lesc, ""),
        lesc.security_level(),
        method_name(legacy, ""),
        legacy.security_level()
    );
}

struct Side {
    io: IoCapabilities,
    oob: bool,
    mitm: bool,
}

impl Side {
    fn features(&self) -> PairingFeatures {
        let auth = AuthReq::new(BondingFlag::NoBonding);
        PairingFeatures {
            io_capabilities: self.io,
            use_oob: if self.oob {
                UseOutOfBand::Present
            } else {
                UseOutOfBand::NotPresent
            },
            security_properties: if self.mitm { auth.with_mitm() } else { auth },
            ..Default::default()
        }
    }
}

impl fmt::Display for Side {
    fn fmt(&self, out: &mut fmt::Formatter<'_>) -> fmt::Result {
        write!(
            out,
            "{} oob {} mitm {}",
            self.io,
            u8::from(self.oob),
            u8::from(self.mitm)
        )
    }
}
