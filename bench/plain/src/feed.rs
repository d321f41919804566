//! Where frames come from.

use crate::fault::Fault;

pub const LONGEST_FRAME: usize = 1040;

pub struct Taken {
    pub port: u8,
    pub len: usize,
}

pub trait Feed {
    fn tick(&mut self, reading: u64, scratch: &mut [u8]) -> Result<(), Fault>;

    fn next(&mut self, buffer: &mut [u8]) -> Result<Taken, Fault>;
}

pub fn check_room(buffer: &[u8]) -> Result<(), Fault> {
    if buffer.len() < LONGEST_FRAME {
        return Err(Fault::Buffer);
    }
    Ok(())
}
