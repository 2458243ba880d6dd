//! Stands in for the crate rand: one uniform draw of a whole number.

use rand_core::RngCore;

pub mod distributions {
    use crate::Rng;

    pub trait Distribution<T> {
        fn sample<R: Rng + ?Sized>(&self, rng: &mut R) -> T;
    }

    pub struct Uniform {
        low: u32,
        count: u32,
    }

    impl Uniform {
        pub fn new_inclusive(low: u32, high: u32) -> Self {
            Self {
                low,
                count: high - low + 1,
            }
        }
    }

    /// A word below the count is its own draw, so that a script can name the number it wants.
    impl Distribution<u32> for Uniform {
        fn sample<R: Rng + ?Sized>(&self, rng: &mut R) -> u32 {
            self.low + rng.next_u32() % self.count
        }
    }
}

pub trait Rng: RngCore {
    fn sample<T, D: distributions::Distribution<T>>(&mut self, distribution: D) -> T {
        distribution.sample(self)
    }
}

impl<R: RngCore + ?Sized> Rng for R {}
