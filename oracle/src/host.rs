//! Stands in for what the crate's lib.rs and its small type files give: addresses,
//! IO capabilities, the error type and the packet pool.

use bt_hci::param::{AddrKind, BdAddr};

use crate::security_manager::{IdentityResolvingKey, Reason};

/// The cases that the text in the build names, of the crate's longer list.
#[derive(Clone, Debug, PartialEq)]
pub enum Error {
    InvalidState,
    InvalidValue,
    OutOfMemory,
    Security(Reason),
    Timeout,
}

#[derive(Clone, Copy, Debug, Eq, PartialEq)]
pub struct Address {
    pub kind: AddrKind,
    pub addr: BdAddr,
}

impl Address {
    pub const fn new(kind: AddrKind, addr: BdAddr) -> Self {
        Self { kind, addr }
    }

    /// The form that f5 and f6 take: the type, then the address with its most significant byte first.
    pub fn to_bytes(self) -> [u8; 7] {
        let [a, b, c, d, e, f] = *self.addr.raw();
        [self.kind.as_raw(), f, e, d, c, b, a]
    }
}

#[derive(Clone, Copy, Debug, PartialEq)]
pub struct Identity {
    pub addr: Address,
    pub irk: Option<IdentityResolvingKey>,
}

#[derive(Clone, Copy, Debug, PartialEq)]
pub enum IoCapabilities {
    DisplayOnly,
    DisplayYesNo,
    KeyboardOnly,
    NoInputNoOutput,
    KeyboardDisplay,
}

impl IoCapabilities {
    /// In the order of their codes on the air, from 0.
    pub const ALL: [Self; 5] = [
        Self::DisplayOnly,
        Self::DisplayYesNo,
        Self::KeyboardOnly,
        Self::NoInputNoOutput,
        Self::KeyboardDisplay,
    ];
}

impl TryFrom<u8> for IoCapabilities {
    type Error = Error;

    fn try_from(code: u8) -> Result<Self, Error> {
        Self::ALL
            .get(usize::from(code))
            .copied()
            .ok_or(Error::InvalidValue)
    }
}

impl From<IoCapabilities> for u8 {
    fn from(io: IoCapabilities) -> u8 {
        io as u8
    }
}

impl std::fmt::Display for IoCapabilities {
    fn fmt(&self, out: &mut std::fmt::Formatter<'_>) -> std::fmt::Result {
        write!(out, "{self:?}")
    }
}

pub trait Packet: AsRef<[u8]> + AsMut<[u8]> {}

pub trait PacketPool {
    type Packet: Packet;

    fn allocate() -> Option<Self::Packet>;
}
