//! Every call with any state and any numbers, as the library has them.
//!
//! The library keeps nothing: the caller brings ring and state, and each call gets what the last one left. Whatever
//! the ring's bytes, the state and the numbers are, the call is answered, so nothing here is unsafe; but nothing here
//! keeps old numbers from being used again, or a state from being used with another ring. [`Cache`](crate::Cache)
//! does.
//!
//! ```
//! use vibetorch::{Refused, raw, ring_bytes};
//!
//! let mut ring = [0; ring_bytes(18)];
//! let mut state = raw::State::blank();
//! raw::make(&mut ring, &mut state)?;
//! assert_eq!(raw::write(&mut ring, &mut state, 7, 3, 2, b"N"), Ok(1));
//! assert_eq!(raw::write(&mut ring, &mut state, 0, 3, 2, b"N"), Err(Refused::NodeZero));
//! # Ok::<(), Refused>(())
//! ```

use crate::refused::Refused;
use crate::sizes::{PINS, WRITES};
use core::mem::{offset_of, size_of};

/// A write that the state lists.
#[derive(Clone, Copy, PartialEq, Eq, Debug, Default)]
#[repr(C)]
pub struct Listed {
    /// The number that the write got.
    pub number: u64,
    /// 0 Unflushed, 1 In flight, 2 Flushed; a state with any other doesn't fit.
    pub phase: u8,
}

/// A record of the pin table.
#[derive(Clone, Copy, PartialEq, Eq, Debug, Default)]
#[repr(C)]
pub struct PinRecord {
    /// 0: a free record.
    pub number: u64,
    /// Flushed writes in reach from this number on are held.
    pub mark: u64,
    /// 0: a pin for all.
    pub node: u32,
}

/// What the host keeps beside the ring.
#[derive(Clone, PartialEq, Eq, Debug)]
#[repr(C)]
pub struct State {
    /// The next number.
    pub next: u64,
    /// The flush under way, 0 for none.
    pub flush: u64,
    /// Writes listed.
    pub count: usize,
    /// Their places, oldest first; behind the listed ones, zeros.
    pub writes: [Listed; WRITES],
    /// The pin table.
    pub pins: [PinRecord; PINS],
}

impl State {
    /// All zeros: the state before the first call, which is [`make`] or [`reopen`].
    pub const fn blank() -> State {
        State {
            next: 0,
            flush: 0,
            count: 0,
            writes: [Listed { number: 0, phase: 0 }; WRITES],
            pins: [PinRecord { number: 0, mark: 0, node: 0 }; PINS],
        }
    }
}

#[repr(C)]
struct Answer {
    refusal: u32,
    value: u64,
    length: u64,
}

#[repr(C)]
struct Changed {
    state: State,
    answer: Answer,
}

// The layout that the library was compiled with.
const _: () = {
    assert!(size_of::<usize>() == 8);
    assert!(size_of::<Listed>() == 16 && offset_of!(Listed, phase) == 8);
    assert!(size_of::<PinRecord>() == 24 && offset_of!(PinRecord, mark) == 8 && offset_of!(PinRecord, node) == 16);
    assert!(size_of::<State>() == 8 + 8 + 8 + 254 * 16 + 16 * 24);
    assert!(offset_of!(State, flush) == 8 && offset_of!(State, count) == 16);
    assert!(offset_of!(State, writes) == 24 && offset_of!(State, pins) == 24 + 254 * 16);
    assert!(size_of::<Answer>() == 24 && offset_of!(Answer, value) == 8 && offset_of!(Answer, length) == 16);
    assert!(offset_of!(Changed, answer) == size_of::<State>());
};

// A slice of Rust is never null, and a `&mut` one overlaps no other: what the library asks of pointers holds of all
// calls below.
unsafe extern "C" {
    fn vibetorch_make(ring: *mut u8, ring_length: usize, state: State) -> Changed;
    fn vibetorch_reopen(ring: *const u8, ring_length: usize, state: State) -> Changed;
    fn vibetorch_write(
        ring: *mut u8,
        ring_length: usize,
        state: State,
        node: u32,
        handle: u32,
        offset: u32,
        bytes: *const u8,
        length: usize,
    ) -> Changed;
    fn vibetorch_pin(ring: *const u8, ring_length: usize, state: State, node: u32) -> Changed;
    fn vibetorch_unpin(ring: *mut u8, ring_length: usize, state: State, number: u64) -> Changed;
    fn vibetorch_fill(
        ring: *const u8,
        ring_length: usize,
        state: State,
        pin: u64,
        node: u32,
        offset: u32,
        fetched: usize,
        buffer: *mut u8,
        length: usize,
    ) -> Answer;
    fn vibetorch_cached_end(ring: *const u8, ring_length: usize, state: State, node: u32) -> Answer;
    fn vibetorch_start(
        ring: *const u8,
        ring_length: usize,
        state: State,
        node: u32,
        buffer: *mut u8,
        length: usize,
    ) -> Changed;
    fn vibetorch_report(ring: *mut u8, ring_length: usize, state: State, number: u64, good: bool) -> Changed;
    fn vibetorch_take_ticket(ring: *const u8, ring_length: usize, state: State) -> Changed;
    fn vibetorch_ask_ticket(ring: *const u8, ring_length: usize, state: State, ticket: u64, node: u32) -> Answer;
    fn vibetorch_whose_turn(ring: *const u8, ring_length: usize, state: State) -> Answer;
}

impl Answer {
    fn checked(self) -> Result<Answer, Refused> {
        match self.refusal {
            0 => Ok(self),
            number => Err(Refused::from_number(number).expect("the library refuses by the paper's numbers")),
        }
    }

    fn value(self) -> Result<u64, Refused> {
        self.checked().map(|answer| answer.value)
    }

    fn done(self) -> Result<(), Refused> {
        self.checked().map(|_| ())
    }
}

impl Changed {
    /// The answer, with the new state put where the old one was; a refused call gives the old one back.
    fn settle(self, state: &mut State) -> Answer {
        *state = self.state;
        self.answer
    }
}

/// A flush as it was begun.
#[derive(Clone, Copy, PartialEq, Eq, Debug)]
pub struct Begun {
    /// The flush number, to be reported.
    pub number: u64,
    /// Bytes of the sheet.
    pub length: usize,
}

/// Makes an empty ring. Its length must be [`ring_bytes`](crate::ring_bytes) of 18 to 255 slots.
pub fn make(ring: &mut [u8], state: &mut State) -> Result<(), Refused> {
    unsafe { vibetorch_make(ring.as_mut_ptr(), ring.len(), state.clone()) }.settle(state).done()
}

/// Reopens a ring after a restart. Gives the next number.
pub fn reopen(ring: &[u8], state: &mut State) -> Result<u64, Refused> {
    unsafe { vibetorch_reopen(ring.as_ptr(), ring.len(), state.clone()) }.settle(state).value()
}

/// Keeps a write. Gives its number.
pub fn write(
    ring: &mut [u8],
    state: &mut State,
    node: u32,
    handle: u32,
    offset: u32,
    bytes: &[u8],
) -> Result<u64, Refused> {
    let (start, length) = (ring.as_mut_ptr(), ring.len());
    unsafe { vibetorch_write(start, length, state.clone(), node, handle, offset, bytes.as_ptr(), bytes.len()) }
        .settle(state)
        .value()
}

/// Pins a node, or all (0). Gives the pin's number.
pub fn pin(ring: &[u8], state: &mut State, node: u32) -> Result<u64, Refused> {
    unsafe { vibetorch_pin(ring.as_ptr(), ring.len(), state.clone(), node) }.settle(state).value()
}

/// Ends a pin.
pub fn unpin(ring: &mut [u8], state: &mut State, number: u64) -> Result<(), Refused> {
    unsafe { vibetorch_unpin(ring.as_mut_ptr(), ring.len(), state.clone(), number) }.settle(state).done()
}

/// Fills a read whose first `fetched` bytes came from shore. Gives the count of bytes that may be shown.
pub fn fill(
    ring: &[u8],
    state: &State,
    pin: u64,
    node: u32,
    offset: u32,
    fetched: usize,
    buffer: &mut [u8],
) -> Result<usize, Refused> {
    let (start, length) = (buffer.as_mut_ptr(), buffer.len());
    unsafe { vibetorch_fill(ring.as_ptr(), ring.len(), state.clone(), pin, node, offset, fetched, start, length) }
        .value()
        .map(|count| count as usize)
}

/// Gives where the node's cached bytes end, 0 if there are none.
pub fn cached_end(ring: &[u8], state: &State, node: u32) -> Result<u32, Refused> {
    unsafe { vibetorch_cached_end(ring.as_ptr(), ring.len(), state.clone(), node) }.value().map(|end| end as u32)
}

/// Starts a flush of a node and writes its sheet to the buffer's front. None: there is nothing to flush.
pub fn start(ring: &[u8], state: &mut State, node: u32, buffer: &mut [u8]) -> Result<Option<Begun>, Refused> {
    let (at, length) = (buffer.as_mut_ptr(), buffer.len());
    let answer = unsafe { vibetorch_start(ring.as_ptr(), ring.len(), state.clone(), node, at, length) }
        .settle(state)
        .checked()?;
    Ok((answer.value != 0).then_some(Begun { number: answer.value, length: answer.length as usize }))
}

/// Reports a flush.
pub fn report(ring: &mut [u8], state: &mut State, number: u64, good: bool) -> Result<(), Refused> {
    unsafe { vibetorch_report(ring.as_mut_ptr(), ring.len(), state.clone(), number, good) }.settle(state).done()
}

/// Takes a ticket. Gives its number.
pub fn take_ticket(ring: &[u8], state: &mut State) -> Result<u64, Refused> {
    unsafe { vibetorch_take_ticket(ring.as_ptr(), ring.len(), state.clone()) }.settle(state).value()
}

/// Whether the ticket is done, for a node or for all (0).
pub fn ask_ticket(ring: &[u8], state: &State, ticket: u64, node: u32) -> Result<bool, Refused> {
    unsafe { vibetorch_ask_ticket(ring.as_ptr(), ring.len(), state.clone(), ticket, node) }
        .value()
        .map(|done| done != 0)
}

/// Gives the node that should be flushed next, 0 if nothing waits.
pub fn whose_turn(ring: &[u8], state: &State) -> Result<u32, Refused> {
    unsafe { vibetorch_whose_turn(ring.as_ptr(), ring.len(), state.clone()) }.value().map(|node| node as u32)
}
