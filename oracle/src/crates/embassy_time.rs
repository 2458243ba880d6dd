//! Stands in for the crate embassy-time. The clock stands still: no timer runs in the oracle,
//! a time-out is marked by hand.

use std::ops::Add;

#[derive(Clone, Copy, Debug)]
pub struct Duration {
    seconds: u64,
}

impl Duration {
    pub const fn from_secs(seconds: u64) -> Self {
        Self { seconds }
    }
}

#[derive(Clone, Copy, Debug)]
pub struct Instant {
    seconds: u64,
}

impl Instant {
    pub const fn now() -> Self {
        Self { seconds: 0 }
    }
}

impl Add<Duration> for Instant {
    type Output = Self;

    fn add(self, wait: Duration) -> Self {
        Self {
            seconds: self.seconds + wait.seconds,
        }
    }
}
