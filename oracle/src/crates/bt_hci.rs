//! Stands in for the crate bt-hci: addresses, the connection handle, and the two traits
//! that types/l2cap.rs puts on its structures.

pub mod param {
    #[derive(Clone, Copy, Debug, Eq, PartialEq)]
    pub struct AddrKind(u8);

    impl AddrKind {
        pub const PUBLIC: Self = Self(0);
        pub const RANDOM: Self = Self(1);

        pub const fn as_raw(self) -> u8 {
            self.0
        }
    }

    /// Six bytes in the order of the air, least significant first.
    #[derive(Clone, Copy, Debug, Eq, PartialEq)]
    pub struct BdAddr([u8; 6]);

    impl BdAddr {
        pub const fn new(bytes: [u8; 6]) -> Self {
            Self(bytes)
        }

        pub const fn raw(&self) -> &[u8; 6] {
            &self.0
        }
    }

    pub struct ConnHandle(pub u16);
}

/// # Safety
/// Unsafe only because types/l2cap.rs says `unsafe impl`; nothing here reads a value's bytes.
pub unsafe trait FixedSizeValue: Copy {
    fn is_valid(data: &[u8]) -> bool;
}

pub trait WriteHci {}

impl<T: FixedSizeValue> WriteHci for T {}
