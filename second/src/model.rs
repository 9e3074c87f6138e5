//! The twelve calls. Each reads the whole ring anew, so nothing is remembered but ring and state.

use crate::fit::{self, Held};
use crate::refusal::Refusal;
use crate::ring::{self, Entry, FILE_LIMIT, LARGEST_WRITE, NUMBER_LIMIT, NewEntry};
use crate::sheet::{lay, sheet};
use crate::state::{Phase, Pin, State, reaches};

const BATCH: usize = 32;
const LARGEST_FILL: usize = 65_536;

pub type Answer<T> = Result<T, Refusal>;

#[derive(Clone, Copy, PartialEq, Eq, Debug)]
pub enum Flush {
    Nothing,
    Begun { number: u64, length: usize },
}

/// A ring that is readable and a state that fits it, taken together.
struct Opened<'a> {
    free: usize,
    held: Vec<Held<'a>>,
}

fn open<'a>(ring: &'a [u8], state: &State) -> Answer<Opened<'a>> {
    let reading = ring::read(ring).ok_or(Refusal::RingUnreadable)?;
    let held = fit::join(&reading.entries, state).ok_or(Refusal::StateDoesNotFit)?;
    Ok(Opened { free: reading.slots - 1 - reading.used, held })
}

fn refuse_if(wrong: bool, refusal: Refusal) -> Answer<()> {
    if wrong { Err(refusal) } else { Ok(()) }
}

fn need_number(state: &State) -> Answer<()> {
    refuse_if(state.next == NUMBER_LIMIT, Refusal::NumbersUsedUp)
}

fn need_within_file(offset: u32, length: usize) -> Answer<()> {
    refuse_if(u64::from(offset) + length as u64 > FILE_LIMIT, Refusal::PastFileLimit)
}

pub fn make(ring: &mut [u8], state: &mut State) -> Answer<()> {
    ring::clear(ring).ok_or(Refusal::BufferLength)?;
    reopen(ring, state).map(|_| ())
}

pub fn reopen(ring: &[u8], state: &mut State) -> Answer<u64> {
    let entries = ring::read(ring).ok_or(Refusal::RingUnreadable)?.entries;
    *state = State::blank();
    state.next = entries.last().map_or(0, |entry| entry.number) + 1;
    state.list(entries.iter().map(|entry| (entry.number, Phase::Unflushed)));
    Ok(state.next)
}

pub fn write(ring: &mut [u8], state: &mut State, node: u32, handle: u32, offset: u32, bytes: &[u8]) -> Answer<u64> {
    let opened = open(ring, state)?;
    refuse_if(node == 0, Refusal::NodeZero)?;
    refuse_if(bytes.is_empty() || bytes.len() > LARGEST_WRITE, Refusal::WriteLength)?;
    need_within_file(offset, bytes.len())?;
    need_number(state)?;
    refuse_if(ring::slots_of(bytes.len()) > opened.free, Refusal::RingFull)?;
    let number = state.take_number();
    let old = opened.held.iter().map(|write| (write.entry.number, write.phase));
    state.list(old.chain([(number, Phase::Unflushed)]));
    ring::store(ring, &NewEntry { number, node, handle, offset, bytes });
    Ok(number)
}

pub fn pin(ring: &[u8], state: &mut State, node: u32) -> Answer<u64> {
    let opened = open(ring, state)?;
    let free = state.pins.iter().position(|pin| !pin.lives());
    let place = free.ok_or(Refusal::TooManyPins)?;
    need_number(state)?;
    let number = state.take_number();
    let mut waiting = opened.held.iter().filter(|write| write.phase != Phase::Flushed);
    let first = waiting.find(|write| reaches(node, write.entry.node));
    let mark = first.map_or(number, |write| write.entry.number);
    state.pins[place] = Pin { number, mark, node };
    Ok(number)
}

pub fn unpin(ring: &mut [u8], state: &mut State, number: u64) -> Answer<()> {
    let opened = open(ring, state)?;
    let place = live_pin(state, number).ok_or(Refusal::NoLivePin)?;
    state.pins[place] = Pin::default();
    let freed = let_go(opened.held, state);
    ring::move_head(ring, freed);
    Ok(())
}

/// Fills `buffer`, whose first `fetched` bytes came from shore, and tells how many bytes now count.
pub fn fill(
    ring: &[u8],
    state: &State,
    pin: u64,
    node: u32,
    offset: u32,
    buffer: &mut [u8],
    fetched: u64,
) -> Answer<usize> {
    let opened = open(ring, state)?;
    refuse_if(node == 0, Refusal::NodeZero)?;
    need_within_file(offset, buffer.len())?;
    let place = live_pin(state, pin).ok_or(Refusal::NoLivePin)?;
    refuse_if(state.pins[place].node != node, Refusal::NoLivePin)?;
    let too_long = fetched > buffer.len() as u64 || buffer.len() > LARGEST_FILL;
    refuse_if(too_long, Refusal::BufferLength)?;
    let fetched = fetched as usize;
    let cached = cached_end(&opened, node).saturating_sub(offset) as usize;
    let filled = fetched.max(cached.min(buffer.len()));
    buffer[fetched..filled].fill(0);
    let window = &mut buffer[..filled];
    for write in opened.held.iter().filter(|write| write.entry.node == node) {
        for (place, bytes) in write.entry.parts() {
            lay(window, offset, place, bytes);
        }
    }
    Ok(filled)
}

pub fn end(ring: &[u8], state: &State, node: u32) -> Answer<u32> {
    let opened = open(ring, state)?;
    refuse_if(node == 0, Refusal::NodeZero)?;
    Ok(cached_end(&opened, node))
}

pub fn flush(ring: &[u8], state: &mut State, node: u32, buffer: &mut [u8]) -> Answer<Flush> {
    let mut opened = open(ring, state)?;
    refuse_if(node == 0, Refusal::NodeZero)?;
    refuse_if(state.flush != 0, Refusal::FlushUnderWay)?;
    let unflushed = |write: &&mut Held| write.entry.node == node && write.phase == Phase::Unflushed;
    let mut batch: Vec<&mut Held> = opened.held.iter_mut().filter(unflushed).take(BATCH).collect();
    if batch.is_empty() {
        return Ok(Flush::Nothing);
    }
    need_number(state)?;
    let entries: Vec<Entry> = batch.iter().map(|write| write.entry).collect();
    let sheet = sheet(node, &entries);
    let room = buffer.get_mut(..sheet.len()).ok_or(Refusal::BufferLength)?;
    room.copy_from_slice(&sheet);
    for write in &mut batch {
        write.phase = Phase::InFlight;
    }
    state.flush = state.take_number();
    state.list(opened.held.iter().map(|write| (write.entry.number, write.phase)));
    Ok(Flush::Begun { number: state.flush, length: sheet.len() })
}

pub fn report(ring: &mut [u8], state: &mut State, number: u64, good: bool) -> Answer<()> {
    let mut opened = open(ring, state)?;
    refuse_if(state.flush == 0 || number != state.flush, Refusal::NotTheFlush)?;
    for write in opened.held.iter_mut().filter(|write| write.phase == Phase::InFlight) {
        write.phase = if good { Phase::Flushed } else { Phase::Unflushed };
    }
    state.flush = 0;
    let freed = if good {
        let_go(opened.held, state)
    } else {
        state.list(opened.held.iter().map(|write| (write.entry.number, write.phase)));
        0
    };
    ring::move_head(ring, freed);
    Ok(())
}

pub fn ticket(ring: &[u8], state: &mut State) -> Answer<u64> {
    open(ring, state)?;
    need_number(state)?;
    Ok(state.take_number())
}

/// Whether the ticket is done.
pub fn ask(ring: &[u8], state: &State, ticket: u64, node: u32) -> Answer<bool> {
    let opened = open(ring, state)?;
    let mut waiting = opened.held.iter().filter(|write| write.phase != Phase::Flushed);
    Ok(!waiting.any(|write| reaches(node, write.entry.node) && write.entry.number < ticket))
}

/// The node whose turn it is, 0 if none.
pub fn turn(ring: &[u8], state: &State) -> Answer<u32> {
    let opened = open(ring, state)?;
    let first = opened.held.iter().find(|write| write.phase == Phase::Unflushed);
    Ok(first.map_or(0, |write| write.entry.node))
}

/// The pin's place in the table. No live pin has number 0.
fn live_pin(state: &State, number: u64) -> Option<usize> {
    state.pins.iter().position(|pin| pin.lives() && pin.number == number)
}

fn cached_end(opened: &Opened, node: u32) -> u32 {
    let ends = opened.held.iter().filter(|write| write.entry.node == node).map(|write| write.entry.end());
    ends.max().unwrap_or(0)
}

/// Lists what stays when every write due at the head has left, and counts the slots that this frees.
fn let_go(held: Vec<Held>, state: &mut State) -> usize {
    let leaving = held.iter().take_while(|write| fit::is_due(write, state)).count();
    let (gone, kept) = held.split_at(leaving);
    state.list(kept.iter().map(|write| (write.entry.number, write.phase)));
    gone.iter().map(|write| write.entry.slots()).sum()
}
