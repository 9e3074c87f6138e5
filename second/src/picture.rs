//! The picture that `show` draws.

use crate::fit::{self, Held};
use crate::refusal::Refusal;
use crate::ring::{self, Reading};
use crate::state::{Phase, Pin, State};

const LETTERS: &[u8; 52] = b"ABCDEFGHIJKLMNOPQRSTUVWXYZabcdefghijklmnopqrstuvwxyz";
const ROW: usize = 16;

/// The picture behind its `ok `, without the last line's end.
pub fn picture(ring: &[u8], state: &State) -> Result<String, Refusal> {
    let reading = ring::read(ring).ok_or(Refusal::RingUnreadable)?;
    let held = fit::join(&reading.entries, state).ok_or(Refusal::StateDoesNotFit)?;
    let nodes = nodes(&held);
    let mut lines = vec![first_line(&reading, state)];
    let cells = cells(&reading, &held, &nodes);
    lines.extend(cells.chunks(ROW).zip((0..).step_by(ROW)).map(|(row, place)| slot_line(place, row)));
    let lettered = nodes.iter().zip(LETTERS);
    lines.extend(lettered.map(|(node, &letter)| format!("  {} is node {node}", char::from(letter))));
    lines.extend(state.live_pins().map(pin_line));
    Ok(lines.join("\n"))
}

fn first_line(reading: &Reading, state: &State) -> String {
    let line = format!("{} slots, {} used, next {}", reading.slots, reading.used, state.next);
    if state.flush == 0 { line } else { format!("{line}, flush {} out", state.flush) }
}

/// The nodes in the order of their oldest held write.
fn nodes(held: &[Held]) -> Vec<u32> {
    let mut nodes = Vec::new();
    for write in held {
        if !nodes.contains(&write.entry.node) {
            nodes.push(write.entry.node);
        }
    }
    nodes
}

fn cells(reading: &Reading, held: &[Held], nodes: &[u32]) -> Vec<String> {
    let mut cells = vec!["..".to_string(); reading.slots];
    let mut slot = reading.head;
    for write in held {
        let order = nodes.iter().position(|&node| node == write.entry.node);
        let letter = order.and_then(|order| LETTERS.get(order)).unwrap_or(&b'*');
        for _ in 0..write.entry.slots() {
            cells[slot] = format!("{}{}", char::from(*letter), sign(write.phase));
            slot = (slot + 1) % reading.slots;
        }
    }
    cells
}

fn sign(phase: Phase) -> char {
    match phase {
        Phase::Unflushed => '-',
        Phase::InFlight => '>',
        Phase::Flushed => '=',
    }
}

fn slot_line(place: usize, row: &[String]) -> String {
    format!("  {place:3} {}", row.join(" "))
}

fn pin_line(pin: &Pin) -> String {
    let Pin { number, mark, node } = pin;
    match node {
        0 => format!("  pin {number} from {mark} for all"),
        _ => format!("  pin {number} from {mark} for node {node}"),
    }
}
