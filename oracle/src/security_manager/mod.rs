//! Stands in for the crate's security_manager/mod.rs, which needs the whole host: the module
//! list, bond information and the outgoing packet. The modules are the crate's own text.

#[allow(warnings)]
mod constants;
#[allow(warnings)]
pub(crate) mod crypto;
#[allow(warnings)]
pub(crate) mod pairing;
#[allow(warnings)]
pub(crate) mod types;

pub use crypto::{IdentityResolvingKey, LongTermKey};
use types::Command;
pub use types::{PassKey, Reason};

use crate::connection::SecurityLevel;
use crate::pdu::Pdu;
use crate::types::l2cap::L2CAP_CID_LE_U_SECURITY_MANAGER;
use crate::{Error, Identity, PacketPool};

#[derive(Clone, Debug, PartialEq)]
pub struct BondInformation {
    pub ltk: LongTermKey,
    pub identity: Identity,
    pub is_bonded: bool,
    pub security_level: SecurityLevel,
}

/// g2 before its modulo, which the crate's own g2 hides (Part H 2.2.9).
#[cfg(not(feature = "legacy-pairing"))]
pub(crate) fn g2_word(
    u: &crypto::PublicKeyX,
    v: &crypto::PublicKeyX,
    x: crypto::Nonce,
    y: crypto::Nonce,
) -> u32 {
    let mut mac = crypto::AesCmac::new(&crypto::Key::new(x.0));
    mac.update(u.as_be_bytes())
        .update(v.as_be_bytes())
        .update(y.0.to_be_bytes());
    let word = mac.finalize() as u32;
    assert_eq!(word % 1_000_000, x.g2(u, v, &y).0);
    word
}

/// An L2CAP basic frame: length, channel, command code, payload.
pub(crate) struct TxPacket<P: PacketPool> {
    packet: P::Packet,
    command: Command,
}

impl<P: PacketPool> TxPacket<P> {
    const HEADER: usize = 5;

    pub(crate) fn new(mut packet: P::Packet, command: Command) -> Result<Self, Error> {
        let (length, channel) = packet.as_mut()[..Self::HEADER - 1].split_at_mut(2);
        length.copy_from_slice(&(1 + command.payload_size()).to_le_bytes());
        channel.copy_from_slice(&L2CAP_CID_LE_U_SECURITY_MANAGER.to_le_bytes());
        packet.as_mut()[Self::HEADER - 1] = command.into();
        Ok(Self { packet, command })
    }

    pub(crate) fn payload_mut(&mut self) -> &mut [u8] {
        let end = self.end();
        &mut self.packet.as_mut()[Self::HEADER..end]
    }

    pub(crate) fn into_pdu(self) -> Pdu<P::Packet> {
        let end = self.end();
        Pdu::new(self.packet, end)
    }

    fn end(&self) -> usize {
        Self::HEADER + usize::from(self.command.payload_size())
    }
}
