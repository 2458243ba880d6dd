//! Stands in for the crate p256-cortex-m4. There is no curve: a secret key is drawn together
//! with its public key and the one shared secret it gives, so a script can name all three.

use rand_core::{CryptoRng, RngCore};

#[derive(Debug)]
pub struct Error;

#[derive(Clone)]
pub struct SecretKey {
    public: PublicKey,
    shared: SharedSecret,
}

impl SecretKey {
    pub fn random<R: RngCore + CryptoRng>(rng: &mut R) -> Self {
        Self {
            public: PublicKey {
                x: draw(rng),
                y: draw(rng),
            },
            shared: SharedSecret(draw(rng)),
        }
    }

    pub fn public_key(&self) -> PublicKey {
        self.public.clone()
    }

    pub fn agree(&self, _peer: &PublicKey) -> SharedSecret {
        self.shared.clone()
    }
}

#[derive(Clone)]
pub struct PublicKey {
    x: [u8; 32],
    y: [u8; 32],
}

impl PublicKey {
    /// Only all zeros is refused: it is off the curve in truth too, and one such point is enough.
    pub fn from_untagged_bytes(bytes: &[u8; 64]) -> Result<Self, Error> {
        if *bytes == [0; 64] {
            return Err(Error);
        }
        let mut key = Self {
            x: [0; 32],
            y: [0; 32],
        };
        key.x.copy_from_slice(&bytes[..32]);
        key.y.copy_from_slice(&bytes[32..]);
        Ok(key)
    }

    pub fn x(&self) -> [u8; 32] {
        self.x
    }

    pub fn y(&self) -> [u8; 32] {
        self.y
    }
}

#[derive(Clone)]
pub struct SharedSecret([u8; 32]);

impl SharedSecret {
    pub fn as_bytes(&self) -> &[u8; 32] {
        &self.0
    }
}

fn draw<R: RngCore>(rng: &mut R) -> [u8; 32] {
    let mut bytes = [0; 32];
    rng.fill_bytes(&mut bytes);
    bytes
}
