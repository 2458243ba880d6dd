//! Stands in for the crate rand_core: the two traits of a random source.

pub trait RngCore {
    fn next_u32(&mut self) -> u32;
    fn fill_bytes(&mut self, out: &mut [u8]);
}

pub trait CryptoRng {}
