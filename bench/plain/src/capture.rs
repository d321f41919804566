//! Captures (docs/CAPTURES.md), and the feed that plays one.

use crate::fault::Fault;
use crate::feed::{check_room, Feed, Taken, LONGEST_FRAME};

pub const LAST_READING: u64 = 4_000_000_000_000_000;

#[derive(Clone, Copy)]
pub struct Record<'a> {
    pub reading: u64,
    pub port: u8,
    pub frame: &'a [u8],
}

/// The records of a sound capture that are still to come.
#[derive(Clone, Copy)]
pub struct Capture<'a>(&'a [u8]);

fn split_record(bytes: &[u8]) -> Option<(Record<'_>, &[u8])> {
    let (head, rest) = bytes.split_first_chunk::<11>()?;
    let [r @ .., port, l1, l0] = *head;
    let (frame, rest) = rest.split_at_checked(usize::from(u16::from_be_bytes([l1, l0])))?;
    Some((Record { reading: u64::from_be_bytes(r), port, frame }, rest))
}

impl<'a> Capture<'a> {
    pub fn open(bytes: &'a [u8]) -> Result<Capture<'a>, Fault> {
        let records = bytes.strip_prefix(b"PHC\x00\x01").ok_or(Fault::Unsound)?;
        let (mut rest, mut low) = (records, 0);
        while !rest.is_empty() {
            let (record, behind) = split_record(rest).ok_or(Fault::Unsound)?;
            if !(low..=LAST_READING).contains(&record.reading)
                || record.port > 15
                || !(1..=LONGEST_FRAME).contains(&record.frame.len())
            {
                return Err(Fault::Unsound);
            }
            (rest, low) = (behind, record.reading);
        }
        Ok(Capture(records))
    }
}

impl<'a> Iterator for Capture<'a> {
    type Item = Record<'a>;

    fn next(&mut self) -> Option<Record<'a>> {
        let (record, rest) = split_record(self.0)?;
        self.0 = rest;
        Some(record)
    }
}

/// Each record waits from the first tick on whose reading is not below its own.
pub struct Recorded<'a> {
    /// The first record that is not taken, and those behind it.
    first: Option<Record<'a>>,
    others: Capture<'a>,
    latest: Option<u64>,
}

impl<'a> Recorded<'a> {
    pub fn over(bytes: &'a [u8]) -> Recorded<'a> {
        let mut others = Capture::open(bytes).unwrap_or(Capture(&[]));
        Recorded { first: others.next(), others, latest: None }
    }
}

impl Feed for Recorded<'_> {
    fn tick(&mut self, reading: u64, scratch: &mut [u8]) -> Result<(), Fault> {
        check_room(scratch)?;
        self.latest = self.latest.max(Some(reading));
        Ok(())
    }

    fn next(&mut self, buffer: &mut [u8]) -> Result<Taken, Fault> {
        check_room(buffer)?;
        match self.first {
            Some(Record { reading, port, frame }) if Some(reading) <= self.latest => {
                self.first = self.others.next();
                buffer[..frame.len()].copy_from_slice(frame);
                Ok(Taken { port, len: frame.len() })
            }
            _ => Err(Fault::NothingWaits),
        }
    }
}
