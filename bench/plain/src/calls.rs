//! The calls that are measured, each in a function that is never inlined.

use crate::capture::{Record, Recorded};
use crate::concentrator::{Concentrator, Pulled, Ticket};
use crate::fault::Fault;
use crate::policy::Absolute;

pub type Hub<'a> = Concentrator<Recorded<'a>, Absolute>;

#[derive(Clone, Copy)]
pub enum Call<'a> {
    Tick(u64),
    Admit(u8, &'a [u8]),
    Pull,
    Write,
}

impl<'a> Call<'a> {
    /// One letter is a tick, a pull or a write; any other frame is admitted.
    pub fn of(record: Record<'a>) -> Call<'a> {
        match record.frame {
            b"t" => Call::Tick(record.reading),
            b"p" => Call::Pull,
            b"w" => Call::Write,
            frame => Call::Admit(record.port, frame),
        }
    }

    /// The place of its kind in the table of times.
    pub fn kind(self) -> usize {
        match self {
            Call::Tick(_) => 0,
            Call::Admit(..) => 1,
            Call::Pull => 2,
            Call::Write => 3,
        }
    }
}

#[inline(never)]
fn tick(hub: &mut Hub, reading: u64, scratch: &mut [u8]) -> Result<(), Fault> {
    hub.tick(reading, scratch)
}

#[inline(never)]
fn admit(hub: &mut Hub, port: u8, frame: &[u8]) -> Result<(), Fault> {
    hub.admit(port, frame)
}

#[inline(never)]
fn pull(hub: &mut Hub, buffer: &mut [u8]) -> Result<Pulled, Fault> {
    hub.pull(buffer)
}

#[inline(never)]
fn take(hub: &mut Hub) -> Result<Ticket, Fault> {
    hub.take()
}

#[inline(never)]
fn write(hub: &mut Hub, ticket: Ticket, out: &mut [u8]) -> Result<usize, Fault> {
    hub.write(ticket, out)
}

/// Makes a call, and answers how many bytes it wrote for a slot.
pub fn make(hub: &mut Hub, call: Call, buffer: &mut [u8]) -> Result<usize, Fault> {
    match call {
        Call::Tick(reading) => tick(hub, reading, buffer)?,
        Call::Admit(port, frame) => admit(hub, port, frame)?,
        Call::Pull => pull(hub, buffer)?.verdict?,
        Call::Write => {
            let ticket = take(hub)?;
            return write(hub, ticket, buffer);
        }
    }
    Ok(0)
}
