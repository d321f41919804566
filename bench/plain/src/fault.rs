//! Refusals with their fixed numbers (docs/REFUSALS.md).

#[derive(Clone, Copy, PartialEq, Eq, Debug)]
#[repr(u8)]
pub enum Fault {
    Short = 1,
    Sync = 2,
    FrameSize = 3,
    CheckWord = 4,
    FrameType = 5,
    IdCode = 6,
    Count = 7,
    NoSlot = 8,
    Length = 9,
    TooEarly = 10,
    StationLimit = 11,
    Rate = 12,
    Unsound = 13,
    Reading = 14,
    Port = 15,
    Buffer = 17,
    Closed = 20,
    Repeated = 21,
    TooFarAhead = 22,
    NoneClosed = 23,
    TicketOut = 24,
    EmptyPlan = 25,
    WaitTooLong = 26,
    PlanFull = 27,
    Exhausted = 28,
    WrongTicket = 29,
    NothingWaits = 30,
}

/// One more than the highest number.
pub const NUMBERS: usize = 31;

/// 0 for success, or the number of the refusal.
pub fn number<T>(answer: &Result<T, Fault>) -> u8 {
    match answer {
        Ok(_) => 0,
        Err(fault) => *fault as u8,
    }
}
