//! The safe calls: the paper's cases, restarts, and a shore that a sheet reaches only in part.

use second::random::Random;
use std::collections::BTreeMap;
use vibetorch::{All, Cache, Node, Refused, Report, SHEET_MOST, Sheet, ring_bytes};

fn node(number: u32) -> Node {
    Node::new(number).unwrap()
}

/// Flushes the node and reports.
fn flush(cache: &mut Cache, of: Node, report: Report) -> Vec<u8> {
    let mut buffer = vec![0; SHEET_MOST];
    let flush = cache.start(of, &mut buffer).unwrap().expect("writes wait");
    buffer.truncate(flush.sheet_length());
    cache.report(flush, report).unwrap();
    buffer
}

#[test]
fn a_pin_holds_what_was_accepted_before_it() {
    let mut ring = [0; ring_bytes(18)];
    let mut cache = Cache::make(&mut ring).unwrap();
    cache.write(node(7), 0, 0, b"a").unwrap();
    let pin = cache.pin(node(7)).unwrap();
    flush(&mut cache, node(7), Report::Good);
    assert_eq!((cache.state().count, cache.state().writes[0].phase), (1, 2));
    let late = cache.pin(node(7)).unwrap();
    assert_eq!((late.number(), late.reach()), (4, node(7)));
    cache.unpin(pin).unwrap();
    assert_eq!(cache.state().count, 0);
    cache.unpin(late).unwrap();
}

#[test]
fn a_full_ring_takes_writes_again() {
    let mut ring = [0; ring_bytes(18)];
    let mut cache = Cache::make(&mut ring).unwrap();
    assert_eq!(cache.write(node(1), 0, 16_777_215, b"ab"), Err(Refused::PastFileEnd));
    cache.write(node(1), 0, 0, &[5; 4096]).unwrap();
    assert_eq!(cache.write(node(1), 0, 16_777_215, b"a"), Err(Refused::NoRoom));
    flush(&mut cache, node(1), Report::Bad);
    assert_eq!(cache.write(node(1), 0, 16_777_215, b"a"), Err(Refused::NoRoom));
    flush(&mut cache, node(1), Report::Good);
    assert_eq!(cache.write(node(1), 0, 16_777_215, b"a").map(|number| number.number()), Ok(4));
}

#[test]
fn a_ticket_waits_for_what_came_before_it() {
    let mut ring = [0; ring_bytes(18)];
    let mut cache = Cache::make(&mut ring).unwrap();
    cache.write(node(1), 0, 0, b"a").unwrap();
    let ticket = cache.take_ticket().unwrap();
    cache.write(node(2), 0, 0, b"b").unwrap();
    assert_eq!(cache.ask_ticket(ticket, All), Ok(false));
    assert_eq!(cache.ask_ticket(ticket, node(2)), Ok(true));
    flush(&mut cache, node(1), Report::Good);
    assert_eq!(cache.ask_ticket(ticket, All), Ok(true));
    assert_eq!(cache.whose_turn(), Ok(Some(node(2))));
}

#[test]
fn a_pin_for_all_and_a_seventeenth() {
    let mut ring = [0; ring_bytes(18)];
    let mut cache = Cache::make(&mut ring).unwrap();
    let pins: Vec<_> = (0..16).map(|_| cache.pin(All).unwrap()).collect();
    assert_eq!(cache.pin(node(1)).unwrap_err(), Refused::TooManyPins);
    for pin in pins {
        cache.unpin(pin).unwrap();
    }
    assert_eq!(cache.next_number(), 17);
}

#[test]
fn handles_of_another_ring_are_refused() {
    let (mut ring, mut other) = ([0; ring_bytes(18)], [0; ring_bytes(18)]);
    let mut cache = Cache::make(&mut ring).unwrap();
    let mut second = Cache::make(&mut other).unwrap();
    cache.write(node(1), 0, 0, b"a").unwrap();
    let flush = cache.start(node(1), &mut [0; 100]).unwrap().unwrap();
    let pin = cache.pin(node(1)).unwrap();
    assert_eq!(second.report(flush, Report::Good), Err(Refused::NotTheFlush));
    assert_eq!(second.fill(&pin, 0, 0, &mut [0; 4]), Err(Refused::NoSuchPin));
    assert_eq!(second.unpin(pin), Err(Refused::NoSuchPin));
}

#[test]
fn what_is_no_sheet() {
    let good = b"\x02\0\0\0\x07\0\0\0\x0A\0\0\0\x01\0\0\0\x0B\0\0\0\x02\0\0\0abc";
    let pieces: Vec<_> = Sheet::read(good).unwrap().pieces().map(|piece| (piece.offset, piece.bytes.len())).collect();
    assert_eq!(pieces, [(10, 1), (11, 2)]);
    for length in 0..good.len() {
        assert_eq!(Sheet::read(&good[..length]), None, "{length} bytes");
    }
    assert_eq!(Sheet::read(&[good.as_slice(), b"d"].concat()), None);
    // The count, the node, an offset that goes back, a length of 0, a place past the file's end.
    for (place, byte) in [(0, 0), (0, 33), (4, 0), (16, 10), (12, 0), (19, 1)] {
        let mut bad = good.to_vec();
        bad[place] = byte;
        assert_eq!(Sheet::read(&bad), None, "byte {place} is {byte}");
    }
}

/// Files as a shore has them: past the end, the gap is zeros.
type Files = BTreeMap<Node, Vec<u8>>;

fn lay(files: &mut Files, of: Node, offset: usize, bytes: &[u8]) {
    let file = files.entry(of).or_default();
    file.resize(file.len().max(offset + bytes.len()), 0);
    file[offset..offset + bytes.len()].copy_from_slice(bytes);
}

/// Lays some of a sheet's bytes, one by one and in any order, as a radio that fails might.
fn lay_in_part(files: &mut Files, sheet: &Sheet, random: &mut Random) {
    let bytes = sheet.pieces().flat_map(|piece| (piece.offset as usize..).zip(piece.bytes));
    let mut some: Vec<(usize, &u8)> = bytes.filter(|_| random.chance(50)).collect();
    some.sort_by_cached_key(|_| random.draw());
    for (place, byte) in some {
        lay(files, sheet.node(), place, &[*byte]);
    }
}

fn lay_sheet(files: &mut Files, sheet: &Sheet) {
    for piece in sheet.pieces() {
        lay(files, sheet.node(), piece.offset as usize, piece.bytes);
    }
}

fn some_write(random: &mut Random) -> (Node, u32, Vec<u8>) {
    let length = if random.chance(20) { random.between(200, 600) } else { random.between(1, 20) };
    (node(random.between(1, 3) as u32), random.below(700) as u32, random.bytes(length as usize))
}

/// Random writes, sheets that land whole or in part, and restarts at any place. At the end the shore has what was
/// written.
#[test]
fn restarts_lose_nothing() {
    for seed in 0..40 {
        let mut random = Random::new(seed);
        let (mut written, mut shore) = (Files::new(), Files::new());
        let mut ring = vec![0; ring_bytes(random.between(18, 60) as usize)];
        Cache::make(&mut ring).unwrap();
        for _ in 0..60 {
            let mut cache = Cache::reopen(&mut ring).unwrap();
            life(&mut cache, &mut random, &mut written, &mut shore);
        }
        let mut cache = Cache::reopen(&mut ring).unwrap();
        while let Some(turn) = cache.whose_turn().unwrap() {
            let sheet = flush(&mut cache, turn, Report::Good);
            lay_sheet(&mut shore, &Sheet::read(&sheet).unwrap());
        }
        assert!(shore == written, "seed {seed}");
    }
}

/// What happens between two restarts.
fn life(cache: &mut Cache, random: &mut Random, written: &mut Files, shore: &mut Files) {
    let mut buffer = vec![0; SHEET_MOST];
    for _ in 0..random.between(1, 12) {
        let (of, offset, bytes) = some_write(random);
        match cache.write(of, 0, offset, &bytes) {
            Ok(_) => lay(written, of, offset as usize, &bytes),
            Err(refused) => assert_eq!(refused, Refused::NoRoom),
        }
        if !random.chance(30) {
            continue;
        }
        let turn = cache.whose_turn().unwrap().unwrap_or(of);
        let Some(flush) = cache.start(turn, &mut buffer).unwrap() else { continue };
        let sheet = Sheet::read(&buffer[..flush.sheet_length()]).unwrap();
        match random.below(3) {
            0 => {
                lay_in_part(shore, &sheet, random);
                return; // the plug is pulled while the sheet is out
            }
            1 => {
                lay_in_part(shore, &sheet, random);
                cache.report(flush, Report::Bad).unwrap();
            }
            _ => {
                lay_sheet(shore, &sheet);
                cache.report(flush, Report::Good).unwrap();
            }
        }
    }
}
