//! Slots at a rate (docs/SLOTS.md).

use crate::fault::Fault;

#[derive(Clone, Copy)]
pub struct Rate(u32);

const SECOND: u64 = 1_000_000;

impl Rate {
    pub fn new(frames: u16) -> Option<Rate> {
        (1..=120).contains(&frames).then_some(Rate(u32::from(frames)))
    }

    fn frames(self) -> u64 {
        u64::from(self.0)
    }

    /// Slots that a frame is judged by are below 2^32 seconds, so that no product overflows.
    pub fn stamp(self, slot: u64) -> u64 {
        slot * SECOND / self.frames()
    }

    /// The SOC of a slot, and its count in millionths.
    pub fn tag(self, slot: u64) -> (u32, u32) {
        let place = (slot % self.frames()) as u32;
        ((slot / self.frames()) as u32, place * SECOND as u32 / self.0)
    }

    pub fn first_slot(self, reading: u64) -> u64 {
        (reading * self.frames()).div_ceil(SECOND)
    }

    /// The highest slot whose stamp is not after the reading.
    pub fn last_slot_by(self, reading: u64) -> u64 {
        (reading * self.frames() + self.frames() - 1) / SECOND
    }

    /// The slot of a frame: its count lies less than a unit off the slot's place in the second.
    pub fn slot_of(self, time_base: u32, soc: u32, count: u32) -> Result<u64, Fault> {
        if count >= time_base {
            return Err(Fault::Count);
        }
        // 24 bits of count and 7 of rate
        let scaled = count * self.0;
        let (below, past) = (scaled / time_base, scaled % time_base);
        let place = if past < self.0 {
            below
        } else if time_base - past < self.0 && below + 1 < self.0 {
            below + 1
        } else {
            return Err(Fault::NoSlot);
        };
        Ok(u64::from(soc) * self.frames() + u64::from(place))
    }

    pub fn fits_window(self, bound: u64) -> bool {
        (100_000 + bound) * self.frames() <= 32_000_000
    }
}
