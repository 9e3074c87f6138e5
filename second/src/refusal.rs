//! The twelve reasons for a no.

#[derive(Clone, Copy, PartialEq, Eq, Debug)]
pub enum Refusal {
    NodeZero = 1,
    WriteLength = 2,
    PastFileLimit = 3,
    RingFull = 4,
    NumbersUsedUp = 5,
    FlushUnderWay = 6,
    NotTheFlush = 7,
    RingUnreadable = 8,
    NoLivePin = 9,
    TooManyPins = 10,
    BufferLength = 11,
    StateDoesNotFit = 12,
}

impl Refusal {
    /// The number in document 01's table.
    pub fn number(self) -> usize {
        self as usize
    }
}
