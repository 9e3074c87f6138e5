//! What is timed: a call, and the box that it is made on.

use crate::call::{Call, Library, Ordinary, Side};
use second::state::{Listed, Pin, State};
use vibetorch::{FILL_MOST, SHEET_MOST, raw, ring_bytes};

const NODE: u32 = 7;
/// The largest write that takes one slot.
const ONE_SLOT: usize = 232;

pub struct Case {
    pub name: &'static str,
    pub call: Call,
    pub library: Library,
    pub ordinary: Ordinary,
}

/// A box in the making.
struct Setup {
    side: Library,
    slots: usize,
}

impl Setup {
    fn new(slots: usize) -> Setup {
        let mut side = Side { ring: vec![0; ring_bytes(slots)], state: raw::State::blank(), buffer: Vec::new() };
        raw::make(&mut side.ring, &mut side.state).expect("a good length");
        Setup { side, slots }
    }

    /// So many writes of this length, one `step` behind the other.
    fn writes(mut self, count: usize, length: usize, step: usize) -> Setup {
        for place in 0..count {
            let bytes: Vec<u8> = (0..length).map(|at| (place * 31 + at) as u8).collect();
            let Side { ring, state, .. } = &mut self.side;
            raw::write(ring, state, NODE, 0, (place * step) as u32, &bytes).expect("room for the write");
        }
        self
    }

    /// One-slot writes that touch, until only `free` slots are left.
    fn filled(self, free: usize) -> Setup {
        let count = self.slots - 1 - free;
        self.writes(count, ONE_SLOT, ONE_SLOT)
    }

    fn pinned(mut self) -> Setup {
        raw::pin(&self.side.ring, &mut self.side.state, NODE).expect("a pin");
        self
    }

    fn flushing(mut self) -> Setup {
        let mut sheet = vec![0; SHEET_MOST];
        raw::start(&self.side.ring, &mut self.side.state, NODE, &mut sheet).expect("a flush").expect("a batch");
        self
    }

    fn reported(mut self) -> Setup {
        let number = self.side.state.flush;
        raw::report(&mut self.side.ring, &mut self.side.state, number, true).expect("the flush");
        self
    }

    fn lent(mut self, length: usize) -> Setup {
        self.side.buffer = vec![0x55; length];
        self
    }

    fn case(self, name: &'static str, call: Call) -> Case {
        let Side { ring, state, buffer } = &self.side;
        let ordinary = Side { ring: ring.clone(), state: translated(state), buffer: buffer.clone() };
        Case { name, call, library: self.side, ordinary }
    }
}

fn translated(state: &raw::State) -> State {
    let mut other = State::blank();
    (other.next, other.flush, other.count) = (state.next, state.flush, state.count as u64);
    for (to, from) in other.listed.iter_mut().zip(&state.writes) {
        *to = Listed { number: from.number, phase: from.phase };
    }
    for (to, from) in other.pins.iter_mut().zip(&state.pins) {
        *to = Pin { number: from.number, mark: from.mark, node: from.node };
    }
    other
}

/// Each call on a ring of so many slots, full of one-slot writes, or where it takes a slot, full but for one. A batch
/// is 32 writes, or all where the ring holds fewer.
pub fn on_full_ring(slots: usize) -> Vec<Case> {
    let full = || Setup::new(slots).filled(0);
    let flush = full().flushing().side.state.flush;
    // Flushed behind a pin for them: unpinning lets a whole batch go.
    let held = || full().pinned().flushing().reported();
    let pin = held().side.state.pins[0].number;
    let write = |length| Call::Write { node: NODE, offset: 5, bytes: vec![0x4E; length] };
    vec![
        full().case("make", Call::Make),
        full().case("reopen", Call::Reopen),
        Setup::new(slots).filled(1).case("write of 1 byte", write(1)),
        Setup::new(slots).filled(1).case("write of 232", write(ONE_SLOT)),
        full().case("pin", Call::Pin { node: NODE }),
        held().case("unpin, a batch leaves", Call::Unpin { number: pin }),
        full().case("cached end", Call::End { node: NODE }),
        full().lent(SHEET_MOST).case("flush of a batch of 232 each", Call::Start { node: NODE }),
        full().flushing().case("report good of a batch", Call::Report { number: flush, good: true }),
        full().flushing().case("report bad of a batch", Call::Report { number: flush, good: false }),
        full().case("take ticket", Call::Ticket),
        full().case("ask ticket", Call::Ask { ticket: slots as u64, node: 8 }),
        full().case("turn", Call::Turn),
        fill("fill of 65,536 over writes of 232", slots, ONE_SLOT),
        fill("fill of 65,536 over writes of 16", slots, 16),
    ]
}

/// A fill of 65,536 bytes, half of them fetched, over writes that are spread over it.
fn fill(name: &'static str, slots: usize, length: usize) -> Case {
    let count = slots - 1;
    let setup = Setup::new(slots).writes(count, length, (FILL_MOST - length) / count).pinned().lent(FILL_MOST);
    let pin = setup.side.state.pins[0].number;
    setup.case(name, Call::Fill { pin, node: NODE, fetched: FILL_MOST / 2 })
}

/// A write of 4,096 to a ring that has just the room.
pub fn largest_write(slots: usize) -> Case {
    let write = Call::Write { node: NODE, offset: 5, bytes: vec![0x4E; 4096] };
    Setup::new(slots).filled(17).case("write of 4,096", write)
}

/// The largest batches that the largest ring can hold. 32 writes of 4,096 take 544 slots, and no ring has them.
pub fn large_batches(slots: usize) -> Vec<Case> {
    let flush = |name, count: usize, length: usize| {
        let setup = Setup::new(slots).writes(count, length, length).lent(SHEET_MOST);
        setup.case(name, Call::Start { node: NODE })
    };
    vec![flush("flush of 14 writes of 4,096", 14, 4096), flush("flush of 32 writes of 1,768", 32, 1768)]
}
