//! What a concentrator is opened with, and the calls that are made on it.

use crate::calls::Hub;
use crate::capture::{Capture, Recorded};
use crate::concentrator::Concentrator;
use crate::fault::Fault;
use crate::plan::Plan;
use crate::policy::Absolute;

pub struct Load<'a> {
    rate: u16,
    wait: u64,
    lines: Capture<'a>,
    pub calls: Capture<'a>,
    feed: &'a [u8],
}

impl<'a> Load<'a> {
    pub fn read(bytes: &'a [u8]) -> Option<Load<'a>> {
        let (head, rest) = bytes.split_first_chunk::<18>()?;
        let (rate, head) = head.split_first_chunk()?;
        let (wait, head) = head.split_first_chunk()?;
        let (lines, calls) = head.split_first_chunk()?;
        let calls = calls.first_chunk()?;
        let (lines, rest) = rest.split_at_checked(u32::from_be_bytes(*lines) as usize)?;
        let (calls, feed) = rest.split_at_checked(u32::from_be_bytes(*calls) as usize)?;
        Some(Load {
            rate: u16::from_be_bytes(*rate),
            wait: u64::from_be_bytes(*wait),
            lines: Capture::open(lines).ok()?,
            calls: Capture::open(calls).ok()?,
            feed,
        })
    }

    pub fn open(&self) -> Result<Hub<'a>, Fault> {
        let mut plan = Plan::begin(1, self.rate);
        for line in self.lines {
            plan.add(line.frame)?;
        }
        let first = self.calls.clone().next().map_or(0, |record| record.reading);
        let feed = Recorded::over(self.feed);
        let hub = Concentrator::open(&plan, feed, Absolute::new(self.wait), first);
        hub.check()?;
        Ok(hub)
    }
}
