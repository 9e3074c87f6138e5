//! Document 01's cases, with the values as the paper prints them.

use second::crc::crc32;
use second::model::{self, Flush};
use second::refusal::Refusal;
use second::ring::slots_of;
use second::state::{Phase, Pin, State};

struct Box {
    ring: Vec<u8>,
    state: State,
}

impl Box {
    fn of(slots: usize) -> Box {
        let mut made = Box { ring: vec![0xAA; 16 + 256 * slots], state: State::blank() };
        model::make(&mut made.ring, &mut made.state).unwrap();
        made
    }

    fn write(&mut self, node: u32, handle: u32, offset: u32, bytes: &[u8]) -> Result<u64, Refusal> {
        model::write(&mut self.ring, &mut self.state, node, handle, offset, bytes)
    }

    fn flush(&mut self, node: u32, buffer: &mut [u8]) -> Result<Flush, Refusal> {
        model::flush(&self.ring, &mut self.state, node, buffer)
    }

    fn report(&mut self, number: u64, good: bool) -> Result<(), Refusal> {
        model::report(&mut self.ring, &mut self.state, number, good)
    }

    fn pin(&mut self, node: u32) -> Result<u64, Refusal> {
        model::pin(&self.ring, &mut self.state, node)
    }

    fn listed(&self) -> Vec<(u64, u8)> {
        self.state.listed[..self.state.count as usize].iter().map(|listed| (listed.number, listed.phase)).collect()
    }
}

fn bytes_of(hex: &str) -> Vec<u8> {
    hex.split_whitespace().map(|pair| u8::from_str_radix(pair, 16).unwrap()).collect()
}

#[test]
fn crc_of_the_nine_digits() {
    assert_eq!(crc32(b"123456789"), 0xCBF4_3926);
    assert_eq!(crc32(b""), 0);
}

#[test]
fn slots_of_a_length() {
    let lengths = [1, 232, 233, 4072, 4073, 4096];
    assert_eq!(lengths.map(slots_of), [1, 1, 2, 16, 17, 17]);
}

#[test]
fn empty_ring_of_18() {
    let made = Box::of(18);
    assert_eq!(made.ring[..16], bytes_of("01 12 00 00 00 00 00 00 00 00 00 00 00 00 00 00"));
    assert!(made.ring[16..].iter().all(|&byte| byte == 0xAA));
}

#[test]
fn first_write() {
    let mut made = Box::of(18);
    assert_eq!(made.write(7, 3, 2, &[0x4E]), Ok(1));
    assert_eq!(made.ring[..4], bytes_of("01 12 00 01"));
    let slot = bytes_of("01 00 00 00 00 00 00 00 07 00 00 00 03 00 00 00 02 00 00 00 01 00 00 00 4E");
    assert_eq!(made.ring[16..41], slot);
    assert_eq!(made.ring[41..272], [0; 231]);
    assert_eq!(made.ring[272], 0xAA);
}

#[test]
fn sheet_of_four_writes() {
    let mut made = Box::of(18);
    for (offset, bytes) in [(10, "AAAA"), (12, "BB"), (14, "C"), (20, "D")] {
        made.write(7, 1, offset, bytes.as_bytes()).unwrap();
    }
    let mut buffer = [0xAA; 31];
    assert_eq!(made.flush(7, &mut buffer[..29]), Err(Refusal::BufferLength));
    assert_eq!(made.flush(7, &mut buffer), Ok(Flush::Begun { number: 5, length: 30 }));
    let sheet = "02 00 00 00 07 00 00 00 0A 00 00 00 05 00 00 00 14 00 00 00 01 00 00 00 41 41 42 42 43 44";
    assert_eq!(buffer[..30], bytes_of(sheet));
    assert_eq!(buffer[30], 0xAA);
}

#[test]
fn fill_over_xyz() {
    let mut made = Box::of(18);
    made.write(7, 1, 5, b"Q").unwrap();
    let pin = made.pin(7).unwrap();
    let mut buffer = *b"xyz.....";
    assert_eq!(model::fill(&made.ring, &made.state, pin, 7, 0, &mut buffer, 3), Ok(6));
    assert_eq!(buffer, *b"xyz\0\0Q..");
    assert_eq!(model::fill(&made.ring, &made.state, pin, 7, 6, &mut buffer, 0), Ok(0));
}

#[test]
fn pinned_write_is_held() {
    let mut made = Box::of(18);
    let mut buffer = [0; 100];
    assert_eq!(made.write(7, 1, 0, b"x"), Ok(1));
    assert_eq!(made.pin(7), Ok(2));
    assert_eq!(made.state.pins[0], Pin { number: 2, mark: 1, node: 7 });
    assert_eq!(made.flush(7, &mut buffer), Ok(Flush::Begun { number: 3, length: 17 }));
    assert_eq!(made.report(3, true), Ok(()));
    assert_eq!(made.listed(), [(1, Phase::Flushed as u8)]);
    assert_eq!(made.pin(7), Ok(4));
    assert_eq!(made.state.pins[1], Pin { number: 4, mark: 4, node: 7 });
    assert_eq!(model::unpin(&mut made.ring, &mut made.state, 2), Ok(()));
    assert_eq!(made.listed(), []);
    assert_eq!(made.ring[..4], [1, 18, 1, 1]);
}

#[test]
fn largest_write_in_the_smallest_ring() {
    let mut made = Box::of(18);
    assert_eq!(made.write(1, 0, 0, &[0x41; 4096]), Ok(1));
    assert_eq!(made.write(1, 0, 0, b"B"), Err(Refusal::RingFull));
    assert_eq!(made.flush(1, &mut [0; 5000]), Ok(Flush::Begun { number: 2, length: 4112 }));
    assert_eq!(made.report(2, true), Ok(()));
    assert_eq!(made.write(1, 0, 0, b"B"), Ok(3));
}

#[test]
fn file_limit() {
    let mut made = Box::of(18);
    assert_eq!(made.write(1, 0, 16_777_215, b"A"), Ok(1));
    assert_eq!(made.write(1, 0, 16_777_215, b"AB"), Err(Refusal::PastFileLimit));
}

#[test]
fn seventeenth_pin() {
    let mut made = Box::of(18);
    for number in 1..=16 {
        assert_eq!(made.pin(number as u32 % 3), Ok(number));
    }
    assert_eq!(made.pin(1), Err(Refusal::TooManyPins));
}

#[test]
fn pin_for_all_holds_another_nodes_flushed_write() {
    // Node 2's write 2 is Flushed, behind node 1's waiting write 1. A pin for all then has mark 1, so it holds both.
    let mut made = Box::of(18);
    made.write(1, 0, 0, b"a").unwrap();
    made.write(2, 0, 0, b"b").unwrap();
    made.flush(2, &mut [0; 100]).unwrap();
    made.report(3, true).unwrap();
    assert_eq!(made.pin(0), Ok(4));
    assert_eq!(made.state.pins[0].mark, 1);
    made.flush(1, &mut [0; 100]).unwrap();
    made.report(5, true).unwrap();
    assert_eq!(made.listed(), [(1, 2), (2, 2)]);
    model::unpin(&mut made.ring, &mut made.state, 4).unwrap();
    assert_eq!(made.listed(), []);
}

#[test]
fn batch_is_the_oldest_32() {
    let mut made = Box::of(255);
    for offset in 0..40 {
        made.write(1, 0, 2 * offset, b"z").unwrap();
    }
    let mut buffer = vec![0; 1000];
    assert_eq!(made.flush(1, &mut buffer), Ok(Flush::Begun { number: 41, length: 8 + 32 * 9 }));
    made.report(41, true).unwrap();
    assert_eq!(made.listed().len(), 8);
    assert_eq!(model::turn(&made.ring, &made.state), Ok(1));
}

#[test]
fn runs_join_and_are_cut() {
    let mut made = Box::of(255);
    made.write(1, 0, 4096, &[2; 4096]).unwrap();
    made.write(1, 0, 1, &[1; 4095]).unwrap();
    let mut buffer = vec![0; 10_000];
    assert_eq!(made.flush(1, &mut buffer), Ok(Flush::Begun { number: 3, length: 8 + 16 + 8191 }));
    let numbers = [2u32, 1, 1, 4096, 4097, 4095].map(u32::to_le_bytes).concat();
    assert_eq!(buffer[..24], numbers);
    assert_eq!(buffer[24..24 + 4095], [1; 4095]);
    assert_eq!(buffer[24 + 4095..24 + 8191], [2; 4096]);
}

#[test]
fn reopening_finds_the_same_writes_unflushed() {
    let mut made = Box::of(18);
    made.write(7, 1, 0, b"a").unwrap();
    made.pin(7).unwrap();
    made.flush(7, &mut [0; 50]).unwrap();
    made.report(3, true).unwrap();
    let before = made.ring.clone();
    assert_eq!(model::reopen(&made.ring, &mut made.state), Ok(2));
    assert_eq!(made.ring, before);
    assert_eq!(made.listed(), [(1, 0)]);
    assert_eq!(made.state.live_pins().count(), 0);
    assert_eq!(made.state.flush, 0);
}

#[test]
fn ticket_waits_for_older_writes_only() {
    let mut made = Box::of(18);
    made.write(7, 1, 0, b"a").unwrap();
    let ticket = model::ticket(&made.ring, &mut made.state).unwrap();
    made.write(8, 1, 0, b"b").unwrap();
    let ask = |made: &Box, node| model::ask(&made.ring, &made.state, ticket, node).unwrap();
    assert_eq!((ask(&made, 7), ask(&made, 0), ask(&made, 8)), (false, false, true));
    made.flush(7, &mut [0; 50]).unwrap();
    assert!(!ask(&made, 7));
    made.report(4, true).unwrap();
    assert!(ask(&made, 7) && ask(&made, 0));
}
