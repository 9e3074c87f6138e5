//! The rules, each for itself: what a step or a moment must keep, told from the history.

use crate::check::Step;
use crate::coverage::Coverage;
use crate::history::{Fetch, History, Write, painted, sheet_of};
use crate::player::Answer;
use crate::ring::Entry;
use crate::script::Command;
use crate::state::{Phase, State};
use std::collections::{BTreeMap, BTreeSet};

/// A rule that didn't hold.
#[derive(Clone, PartialEq, Eq, Debug)]
pub struct Fault {
    pub rule: &'static str,
    pub detail: String,
}

pub type Checked = Result<(), Fault>;

pub const SHORE: &str = "shore and ring";
pub const HELD: &str = "held writes";
pub const STATE: &str = "state";

pub fn hold(holds: bool, rule: &'static str, detail: impl FnOnce() -> String) -> Checked {
    if holds { Ok(()) } else { Err(Fault { rule, detail: detail() }) }
}

/// A refusal changes no state and no byte; a call that is lent no buffer changes none of it.
pub fn untouched(step: &Step) -> Checked {
    let Step { before, command, answer, after } = step;
    let refused = matches!(answer, Answer::Refused(_) | Answer::Nothing);
    let is_make = matches!(command, Command::Make { .. });
    let lent = match command {
        Command::Fill { length, bytes, .. } => {
            let mut lent = bytes.clone();
            lent.resize(*length, 0xAA);
            Some(lent)
        }
        Command::Flush { length, .. } => Some(vec![0xAA; *length]),
        _ => None,
    };
    let state_same = !refused || before.state == after.state;
    let ring_same = !refused || is_make || before.ring == after.ring;
    let buffer_same = match lent {
        Some(lent) => !refused || after.buffer == lent,
        None => after.buffer == before.buffer,
    };
    hold(state_same && ring_same && buffer_same, "untouched", || format!("{command:?} changed what it may not"))
}

/// The ring's entries are exactly the writes that must be held, in order.
pub fn held_exactly(history: &History, entries: &[Entry]) -> Checked {
    let same = |(entry, write): (&Entry, &Write)| {
        entry.number == write.number
            && entry.node == write.node
            && entry.handle == write.handle
            && entry.offset == write.offset
            && entry.to_vec() == write.bytes
    };
    let holds = entries.len() == history.held.len() && entries.iter().zip(&history.held).all(same);
    hold(holds, HELD, || {
        let ring: Vec<u64> = entries.iter().map(|entry| entry.number).collect();
        let due: Vec<u64> = history.held.iter().map(|write| write.number).collect();
        format!("the ring has {ring:?}, held must be {due:?}")
    })
}

/// For every node, the shore's file with the ring laid over it is the history's file.
pub fn shore_and_ring(history: &History, entries: &[Entry]) -> Checked {
    let nodes: BTreeSet<u32> = history.files.keys().chain(history.shore.keys()).copied().collect();
    let empty = Default::default();
    nodes.into_iter().try_for_each(|node| {
        let file = history.files.get(&node).unwrap_or(&empty);
        hold(history.seen_through(node, entries) == *file, SHORE, || format!("node {node} differs"))
    })
}

/// The state tells what the history tells.
pub fn state_tells(history: &History, state: &State) -> Checked {
    let flush = history.out.as_ref().map_or(0, |out| out.number);
    let phase = |write: &Write| match write {
        _ if history.is_out(write.number) => Phase::InFlight,
        _ if write.good => Phase::Flushed,
        _ => Phase::Unflushed,
    };
    let phases = history.held.iter().zip(&state.listed);
    let pins: BTreeMap<u64, (u32, u64)> = state.live_pins().map(|pin| (pin.number, (pin.node, pin.mark))).collect();
    let told_pins = history.pins.iter().map(|(&number, pin)| (number, (pin.node, pin.mark)));
    let holds = state.next == history.next
        && state.flush == flush
        && state.count == history.held.len() as u64
        && phases.clone().all(|(write, listed)| listed.number == write.number && listed.phase == phase(write) as u8)
        && pins.len() == state.live_pins().count()
        && pins == told_pins.collect();
    hold(holds, STATE, || "the state isn't what the history tells".into())
}

pub fn number_is_next(history: &History, answer: &Answer) -> Checked {
    value_is(answer, history.next, "numbers")
}

pub fn value_is(answer: &Answer, value: u64, rule: &'static str) -> Checked {
    hold(*answer == Answer::Value(value), rule, || format!("{answer} where {value} is due"))
}

pub fn begin_flush(history: &mut History, node: u32, step: &Step) -> Checked {
    let batch = history.batch(node);
    let bytes = painted(&batch);
    let sheet = sheet_of(node, &bytes);
    let due = Answer::Begun { number: history.next, length: sheet.len() as u64 };
    hold(*step.answer == due, "flush answer", || format!("{} where {due} is due", step.answer))?;
    let (front, behind) = step.after.buffer.split_at(sheet.len());
    hold(front == sheet, "sheet", || "the sheet isn't the batch laid in order".into())?;
    hold(behind.iter().all(|&byte| byte == 0xAA), "sheet", || "bytes after the sheet changed".into())?;
    let batch = batch.iter().map(|write| write.number).collect();
    history.send(node, batch, bytes);
    Ok(())
}

/// Where the host kept the premises, the fill claim; and for every fill the rule, by the held writes.
pub fn check_fill(history: &History, step: &Step, coverage: &mut Coverage) -> Checked {
    let &Command::Fill { node, offset, length, fetched, ref bytes, .. } = step.command else { return Ok(()) };
    if let Some(fetch) = fetch_of(history, step.command) {
        let now = history.files.get(&node).map_or(Vec::new(), |file| file.read(offset, length));
        let claimed = *step.answer == Answer::Value(now.len() as u64) && step.after.buffer[..now.len()] == now;
        hold(claimed, "fill claim", || "the bytes aren't those of the history's file".into())?;
        coverage.saw("fill with fetched bytes, claim held");
        if history.good_batches[fetch.good_before..].contains(&node) {
            coverage.saw("claim held after a batch of the node landed since the fetch");
        }
    }
    let mut lent = bytes.clone();
    lent.resize(length, 0xAA);
    let (count, buffer) = filled(history, node, offset, lent, fetched as usize);
    value_is(step.answer, count as u64, "fill count")?;
    hold(step.after.buffer == buffer, "fill rule", || "a byte isn't the newest".into())
}

/// The fetch whose bytes a fill brings. The history forgets fetches at a restart and when their pin goes.
fn fetch_of<'a>(history: &'a History, command: &Command) -> Option<&'a Fetch> {
    let &Command::Fill { pin, node, offset, length, fetched, ref bytes } = command else { return None };
    history.fetches.iter().find(|fetch| {
        (fetch.pin, fetch.node, fetch.offset, fetch.length) == (pin, node, offset, length)
            && fetch.bytes.len() as u64 == fetched
            && fetch.bytes == *bytes
    })
}

/// What a fill makes of a lent buffer: for each byte, the newest held write that covers it is looked for.
fn filled(history: &History, node: u32, offset: u32, mut lent: Vec<u8>, fetched: usize) -> (usize, Vec<u8>) {
    let limit = offset + lent.len() as u32;
    let near = |write: &&Write| write.node == node && write.offset < limit && write.end() > offset;
    let newest_first: Vec<&Write> = history.held.iter().rev().filter(near).collect();
    let end = cached_end(history, node);
    let count = fetched.max(lent.len().min(end.saturating_sub(offset) as usize));
    for (place, byte) in (offset..).zip(&mut lent[..count]) {
        if let Some(write) = newest_first.iter().find(|write| write.covers(place)) {
            *byte = write.bytes[(place - write.offset) as usize];
        } else if place >= offset + fetched as u32 {
            *byte = 0;
        }
    }
    (count, lent)
}

fn cached_end(history: &History, node: u32) -> u32 {
    history.held.iter().filter(|write| write.node == node).map(Write::end).max().unwrap_or(0)
}

/// The calls that only ask.
pub fn check_question(history: &History, step: &Step) -> Checked {
    match *step.command {
        Command::End { node } => value_is(step.answer, cached_end(history, node).into(), "cached end"),
        Command::Turn => {
            let mut unflushed = history.held.iter().filter(|write| !write.good && !history.is_out(write.number));
            value_is(step.answer, unflushed.next().map_or(0, |write| write.node.into()), "turn")
        }
        Command::Ask { number, node } => {
            // Of a real ticket the order of the calls counts; any other number is compared as a number.
            let before = |write: &Write| match history.tickets.get(&number) {
                Some(&accepted) => write.order < accepted,
                None => write.number < number,
            };
            let in_reach = |write: &Write| node == 0 || node == write.node;
            let done = history.held.iter().all(|write| write.good || !before(write) || !in_reach(write));
            value_is(step.answer, done.into(), "ticket")
        }
        _ => Ok(()),
    }
}
