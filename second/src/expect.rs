//! Which no a call must get, by the history alone. 8 and 12 are never among them: without damage they don't come.

use crate::history::{History, painted, sheet_of};
use crate::refusal::Refusal;
use crate::ring::{FILE_LIMIT, LARGEST_WRITE, NUMBER_LIMIT, slots_of};
use crate::script::Command;

#[derive(Clone, Copy, PartialEq, Eq, Debug)]
pub enum Expected {
    Value,
    Nothing,
    Refused(Refusal),
}

/// What kind of answer a call on an undamaged ring must get. Of the reasons that apply, listed in the paper's order,
/// the first is given.
pub fn expected(history: &History, command: &Command) -> Expected {
    if let Command::Flush { node, length } = *command {
        return of_flush(history, node, length);
    }
    let reasons = match command {
        Command::Write { node, offset, bytes, .. } => of_write(history, *node, *offset, bytes.len()),
        Command::Pin { .. } => {
            vec![(history.pins.len() >= 16, Refusal::TooManyPins), no_number(history)]
        }
        Command::Unpin { number } => vec![(!history.pins.contains_key(number), Refusal::NoLivePin)],
        Command::Fill { pin, node, offset, length, fetched, .. } => {
            of_fill(history, *pin, *node, *offset, *length, *fetched)
        }
        Command::End { node } => vec![(*node == 0, Refusal::NodeZero)],
        Command::Report { number, .. } => {
            let is_out = history.out.as_ref().is_some_and(|out| out.number == *number);
            vec![(!is_out, Refusal::NotTheFlush)]
        }
        Command::Ticket => vec![no_number(history)],
        _ => vec![],
    };
    first(&reasons)
}

type Reason = (bool, Refusal);

fn first(reasons: &[Reason]) -> Expected {
    let applies = reasons.iter().find(|(applies, _)| *applies);
    applies.map_or(Expected::Value, |&(_, refusal)| Expected::Refused(refusal))
}

fn no_number(history: &History) -> Reason {
    (history.next == NUMBER_LIMIT, Refusal::NumbersUsedUp)
}

fn past_file(offset: u32, length: usize) -> Reason {
    (u64::from(offset) + length as u64 > FILE_LIMIT, Refusal::PastFileLimit)
}

fn of_write(history: &History, node: u32, offset: u32, length: usize) -> Vec<Reason> {
    let used: usize = history.held.iter().map(|write| slots_of(write.bytes.len())).sum();
    vec![
        (node == 0, Refusal::NodeZero),
        (!(1..=LARGEST_WRITE).contains(&length), Refusal::WriteLength),
        past_file(offset, length),
        no_number(history),
        (used + slots_of(length) > history.slots - 1, Refusal::RingFull),
    ]
}

fn of_fill(history: &History, pin: u64, node: u32, offset: u32, length: usize, fetched: u64) -> Vec<Reason> {
    let lives = history.pins.get(&pin).is_some_and(|live| live.node == node);
    vec![
        (node == 0, Refusal::NodeZero),
        past_file(offset, length),
        (!lives, Refusal::NoLivePin),
        (fetched > length as u64 || length > 65_536, Refusal::BufferLength),
    ]
}

fn of_flush(history: &History, node: u32, length: usize) -> Expected {
    let early = [(node == 0, Refusal::NodeZero), (history.out.is_some(), Refusal::FlushUnderWay)];
    let early = first(&early);
    if early != Expected::Value {
        return early;
    }
    let batch = history.batch(node);
    if batch.is_empty() {
        return Expected::Nothing;
    }
    let sheet = sheet_of(node, &painted(&batch));
    first(&[no_number(history), (sheet.len() > length, Refusal::BufferLength)])
}
