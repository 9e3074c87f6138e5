//! Whether a state fits a ring.

use crate::ring::{Entry, NUMBER_LIMIT};
use crate::state::{Phase, State};
use std::collections::BTreeSet;

/// An entry of the ring with the phase that the state gives it.
#[derive(Clone, Copy, Debug)]
pub struct Held<'a> {
    pub entry: Entry<'a>,
    pub phase: Phase,
}

/// The ring's entries with their phases, if the state fits.
pub fn join<'a>(entries: &[Entry<'a>], state: &State) -> Option<Vec<Held<'a>>> {
    let held = with_phases(entries, state)?;
    let fits = numbers_fit(&held, state)
        && flushed_come_first(&held)
        && in_flight_fit(&held, state.flush)
        && !held.first().is_some_and(|head| is_due(head, state));
    fits.then_some(held)
}

/// Whether a write may leave once it is at the head.
pub fn is_due(write: &Held, state: &State) -> bool {
    let Entry { node, number, .. } = write.entry;
    write.phase == Phase::Flushed && !state.pins.iter().any(|pin| pin.holds(node, number))
}

fn with_phases<'a>(entries: &[Entry<'a>], state: &State) -> Option<Vec<Held<'a>>> {
    if state.count != entries.len() as u64 {
        return None;
    }
    let pairs = entries.iter().zip(&state.listed);
    pairs
        .map(|(&entry, listed)| {
            let phase = Phase::from_byte(listed.phase)?;
            (listed.number == entry.number).then_some(Held { entry, phase })
        })
        .collect()
}

fn numbers_fit(held: &[Held], state: &State) -> bool {
    let pins: BTreeSet<u64> = state.live_pins().map(|pin| pin.number).collect();
    let greatest_pin = pins.last().copied().unwrap_or(0);
    // The entries of a readable ring rise, so the last has the greatest number.
    let greatest_write = held.last().map_or(0, |write| write.entry.number);
    pins.len() == state.live_pins().count()
        && (1..=NUMBER_LIMIT).contains(&state.next)
        && greatest_pin.max(greatest_write).max(state.flush) < state.next
}

fn flushed_come_first(held: &[Held]) -> bool {
    let mut waiting = BTreeSet::new();
    held.iter().all(|write| {
        if write.phase == Phase::Flushed {
            return !waiting.contains(&write.entry.node);
        }
        waiting.insert(write.entry.node);
        true
    })
}

/// In flight writes are there exactly if a flush is, and are the oldest not Flushed of one node.
fn in_flight_fit(held: &[Held], flush: u64) -> bool {
    let in_flight = |write: &&Held| write.phase == Phase::InFlight;
    let Some(first) = held.iter().find(in_flight) else {
        return flush == 0;
    };
    let node = first.entry.node;
    let one_node = held.iter().filter(in_flight).all(|write| write.entry.node == node);
    let count = held.iter().filter(in_flight).count();
    let oldest = held.iter().filter(|write| write.entry.node == node && write.phase != Phase::Flushed);
    flush != 0 && one_node && oldest.take(count).all(|write| write.phase == Phase::InFlight)
}
