//! When a slot closes.

pub trait Policy {
    fn longest_wait(&self) -> u64;

    fn closes_at(&self, stamp: u64, arrival: Option<u64>) -> u64;
}

/// At the stamp plus a wait.
pub struct Absolute {
    wait: u64,
}

impl Absolute {
    pub fn new(wait: u64) -> Absolute {
        Absolute { wait: wait.min(60_000_000) }
    }
}

impl Policy for Absolute {
    fn longest_wait(&self) -> u64 {
        self.wait
    }

    fn closes_at(&self, stamp: u64, _arrival: Option<u64>) -> u64 {
        stamp.min(5_000_000_000_000_000) + self.wait
    }
}
