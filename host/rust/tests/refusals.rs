//! Every refusal, through `raw`: its number and words, and that it changes no state and no byte.

use second::random::Random;
use vibetorch::raw::{self, State};
use vibetorch::{FILE_END, PINS, Refused, ring_bytes};

/// A box before and after a call: ring, state, and the lent buffer.
#[derive(Clone, PartialEq, Debug)]
struct Boxed {
    ring: Vec<u8>,
    state: State,
    buffer: Vec<u8>,
}

type Before = fn() -> Boxed;
type Call = fn(&mut Boxed) -> Result<(), Refused>;

/// A ring of 18 slots where write 1 (node 7) is held, pin 2 is for node 7, pin 3 for all.
fn usual() -> Boxed {
    let mut boxed = Boxed { ring: vec![0xAA; ring_bytes(18)], state: State::blank(), buffer: vec![0x55; 64] };
    let Boxed { ring, state, .. } = &mut boxed;
    raw::make(ring, state).unwrap();
    assert_eq!(raw::write(ring, state, 7, 3, 5, b"Q"), Ok(1));
    assert_eq!((raw::pin(ring, state, 7), raw::pin(ring, state, 0)), (Ok(2), Ok(3)));
    boxed
}

/// The same, with flush 4 under way.
fn flushing() -> Boxed {
    let mut boxed = usual();
    let mut buffer = [0; 64];
    let begun = raw::start(&boxed.ring, &mut boxed.state, 7, &mut buffer);
    assert_eq!(begun, Ok(Some(raw::Begun { number: 4, length: 17 })));
    boxed
}

fn all_pinned() -> Boxed {
    let mut boxed = usual();
    for _ in 2..PINS {
        raw::pin(&boxed.ring, &mut boxed.state, 9).unwrap();
    }
    boxed
}

fn no_number_left() -> Boxed {
    let mut boxed = usual();
    boxed.state.next = 1 << 62;
    boxed
}

fn full() -> Boxed {
    let mut boxed = usual();
    raw::write(&mut boxed.ring, &mut boxed.state, 7, 0, 0, &[1; 4072]).unwrap();
    boxed
}

fn unreadable() -> Boxed {
    let mut boxed = usual();
    boxed.ring[4] = 1;
    boxed
}

fn short_ring() -> Boxed {
    let mut boxed = usual();
    boxed.ring.pop();
    boxed
}

fn no_ring() -> Boxed {
    Boxed { ring: Vec::new(), state: State::blank(), buffer: Vec::new() }
}

fn unfit() -> Boxed {
    let mut boxed = usual();
    boxed.state.writes[0].number = 2;
    boxed
}

fn short_buffer() -> Boxed {
    Boxed { buffer: vec![0x55; 16], ..usual() }
}

fn long_buffer() -> Boxed {
    Boxed { buffer: vec![0x55; 65_537], ..usual() }
}

fn write(boxed: &mut Boxed, node: u32, offset: u32, bytes: &[u8]) -> Result<(), Refused> {
    raw::write(&mut boxed.ring, &mut boxed.state, node, 3, offset, bytes).map(|_| ())
}

fn fill(boxed: &mut Boxed, pin: u64, node: u32, offset: u32, fetched: usize) -> Result<(), Refused> {
    raw::fill(&boxed.ring, &boxed.state, pin, node, offset, fetched, &mut boxed.buffer).map(|_| ())
}

fn start(boxed: &mut Boxed, node: u32) -> Result<(), Refused> {
    raw::start(&boxed.ring, &mut boxed.state, node, &mut boxed.buffer).map(|_| ())
}

/// Each call with numbers that are good on the usual box, but for `report`, which finds no flush there.
const CALLS: [(&str, Call); 11] = [
    ("reopen", |b| raw::reopen(&b.ring, &mut b.state).map(|_| ())),
    ("write", |b| write(b, 7, 0, b"Q")),
    ("pin", |b| raw::pin(&b.ring, &mut b.state, 7).map(|_| ())),
    ("unpin", |b| raw::unpin(&mut b.ring, &mut b.state, 2)),
    ("fill", |b| fill(b, 2, 7, 0, 1)),
    ("end", |b| raw::cached_end(&b.ring, &b.state, 7).map(|_| ())),
    ("start", |b| start(b, 7)),
    ("report", |b| raw::report(&mut b.ring, &mut b.state, 4, true)),
    ("ticket", |b| raw::take_ticket(&b.ring, &mut b.state).map(|_| ())),
    ("ask", |b| raw::ask_ticket(&b.ring, &b.state, 9, 7).map(|_| ())),
    ("turn", |b| raw::whose_turn(&b.ring, &b.state).map(|_| ())),
];

/// Each refusal from each call that gives it.
#[rustfmt::skip]
const REFUSALS: &[(u32, Before, Call)] = &[
    (1, usual, |b| write(b, 0, 0, b"Q")),
    (1, usual, |b| fill(b, 2, 0, 0, 1)),
    (1, usual, |b| raw::cached_end(&b.ring, &b.state, 0).map(|_| ())),
    (1, usual, |b| start(b, 0)),
    (2, usual, |b| write(b, 7, 0, b"")),
    (2, usual, |b| write(b, 7, 0, &[1; 4097])),
    (3, usual, |b| write(b, 7, FILE_END - 1, b"QQ")),
    (3, usual, |b| write(b, 7, u32::MAX, b"Q")),
    (3, usual, |b| fill(b, 2, 7, FILE_END - 63, 1)),
    (4, full, |b| write(b, 7, 0, b"Q")),
    (5, no_number_left, |b| write(b, 7, 0, b"Q")),
    (5, no_number_left, |b| raw::pin(&b.ring, &mut b.state, 7).map(|_| ())),
    (5, no_number_left, |b| start(b, 7)),
    (5, no_number_left, |b| raw::take_ticket(&b.ring, &mut b.state).map(|_| ())),
    (6, flushing, |b| start(b, 7)),
    (7, flushing, |b| raw::report(&mut b.ring, &mut b.state, 3, true)),
    (7, usual, |b| raw::report(&mut b.ring, &mut b.state, 0, false)),
    (9, usual, |b| raw::unpin(&mut b.ring, &mut b.state, 1)),
    (9, usual, |b| raw::unpin(&mut b.ring, &mut b.state, 0)),
    (9, usual, |b| fill(b, 3, 7, 0, 1)),
    (9, usual, |b| fill(b, 2, 8, 0, 1)),
    (10, all_pinned, |b| raw::pin(&b.ring, &mut b.state, 7).map(|_| ())),
    (11, usual, |b| fill(b, 2, 7, 0, 65)),
    (11, usual, |b| fill(b, 2, 7, 0, usize::MAX)),
    (11, long_buffer, |b| fill(b, 2, 7, 0, 1)),
    (11, short_buffer, |b| start(b, 7)),
    (11, short_ring, |b| raw::make(&mut b.ring, &mut b.state)),
    (11, no_ring, |b| raw::make(&mut b.ring, &mut b.state)),
];

fn is_refused(number: u32, before: Boxed, call: Call, name: &str) {
    let mut after = before.clone();
    let refused = call(&mut after).expect_err(name);
    assert_eq!(refused.number(), number, "{name}");
    assert!(before == after, "refusal {number} of {name} changed something");
}

#[test]
fn each_reason_from_each_call() {
    for &(number, boxed, call) in REFUSALS {
        is_refused(number, boxed(), call, "the call");
    }
}

#[test]
fn every_call_tests_ring_and_state() {
    for (name, call) in CALLS {
        is_refused(8, unreadable(), call, name);
        is_refused(8, short_ring(), call, name);
        is_refused(8, no_ring(), call, name);
        if name != "reopen" {
            is_refused(12, unfit(), call, name);
            is_refused(12, Boxed { state: State::blank(), ..usual() }, call, name);
        }
    }
}

#[test]
fn good_numbers_are_not_refused() {
    for (name, call) in CALLS {
        let mut boxed = if name == "report" { flushing() } else { usual() };
        assert_eq!(call(&mut boxed), Ok(()), "{name}");
    }
}

/// Any bytes as a ring, any numbers as a state: the call is answered, and a refusal changes nothing.
#[test]
fn any_bytes_and_any_state() {
    let mut random = Random::new(7);
    for _ in 0..3_000 {
        let mut before = usual();
        for _ in 0..random.below(4) {
            let place = random.below(before.ring.len().min(300) as u64) as usize;
            before.ring[place] = random.draw() as u8;
        }
        let odd = [0, 1, 2, 3, 4, 253, 254, 255, 1 << 62, u64::MAX, random.draw()];
        match random.below(6) {
            0 => before.state.next = random.pick(&odd),
            1 => before.state.flush = random.pick(&odd),
            2 => before.state.count = random.pick(&odd) as usize,
            3 => before.state.writes[random.below(3) as usize].phase = random.draw() as u8,
            4 => before.state.pins[random.below(16) as usize].number = random.pick(&odd),
            _ => before.state.pins[random.below(16) as usize].mark = random.pick(&odd),
        }
        for (name, call) in CALLS {
            let mut after = before.clone();
            if call(&mut after).is_err() {
                assert!(before == after, "{name} was refused and changed something");
            }
        }
    }
}

#[test]
fn each_says_its_number_and_words() {
    for refused in Refused::ALL {
        let said = refused.to_string();
        assert!(said.ends_with(&format!(" (refusal {})", refused.number())), "{said}");
        assert!(said.contains(refused.words()), "{said}");
    }
    let no: &dyn std::error::Error = &Refused::NoRoom;
    assert_eq!(no.to_string(), "no room: a write needs more than N - 1 less the used slots (refusal 4)");
}
