//! What a step shows, for the coverage table.

use crate::check::Step;
use crate::coverage::Coverage;
use crate::history::{History, Write, painted, sheet_of};
use crate::player::Answer;
use crate::ring::slots_of;
use crate::script::Command;

pub fn refusal(answer: &Answer, coverage: &mut Coverage) {
    match answer {
        Answer::Refused(refusal) => coverage.saw_refusal(*refusal),
        Answer::Nothing => coverage.saw("nothing to flush"),
        _ => {}
    }
}

/// A call that went through, with the history as it was before.
pub fn step(history: &History, step: &Step, coverage: &mut Coverage) {
    match *step.command {
        Command::Write { node, ref bytes, .. } => {
            if usize::from(step.before.ring[3]) + slots_of(bytes.len()) > history.slots {
                coverage.saw("entry wrapped at the ring's end");
            }
            if history.out.as_ref().is_some_and(|out| out.node == node) {
                coverage.saw("write came while its node's sheet was out");
            }
        }
        Command::Flush { node, .. } => flush(history, node, coverage),
        Command::Report { good, .. } => report(history, good, coverage),
        Command::Reopen => reopen(history, coverage),
        Command::Ask { number, .. } if history.tickets.contains_key(&number) => {
            let done = *step.answer == Answer::Value(1);
            coverage.saw(if done { "ticket asked, done" } else { "ticket asked, not done" });
        }
        _ => {}
    }
}

fn flush(history: &History, node: u32, coverage: &mut Coverage) {
    let batch = history.batch(node);
    coverage.saw_times("Unflushed, taken", batch.len());
    if batch.len() == 32 {
        coverage.saw("full batch of 32");
    }
    if history.waiting(node).count() > batch.len() {
        coverage.saw("more than 32 waited for a batch");
    }
    let bytes = painted(&batch);
    if bytes.len() < batch.iter().map(|write| write.bytes.len()).sum() {
        coverage.saw("overlapping writes in a batch");
    }
    let sheet = sheet_of(node, &bytes);
    let pieces = pieces(&sheet);
    if pieces.len() > 1 {
        coverage.saw("sheet of several pieces");
    }
    // A piece that ends where the next begins was cut off.
    if pieces.windows(2).any(|pair| pair[0].0 + pair[0].1 == pair[1].0) {
        coverage.saw("run cut into pieces");
    }
}

/// Offset and length of each piece of a sheet.
fn pieces(sheet: &[u8]) -> Vec<(u32, u32)> {
    let number = |bytes: &[u8]| u32::from_le_bytes(bytes.try_into().unwrap());
    let count = number(&sheet[..4]) as usize;
    sheet[8..].chunks_exact(8).take(count).map(|pair| (number(&pair[..4]), number(&pair[4..]))).collect()
}

fn report(history: &History, good: bool, coverage: &mut Coverage) {
    let Some(out) = &history.out else { return };
    let move_name = if good { "In flight, good" } else { "In flight, bad" };
    coverage.saw_times(move_name, out.batch.len());
    if !good && out.some_landed && !out.pending.is_empty() {
        coverage.saw("some bytes landed, then bad");
    }
}

fn reopen(history: &History, coverage: &mut Coverage) {
    let count = |chosen: &dyn Fn(&Write) -> bool| history.held.iter().filter(|write| chosen(write)).count();
    coverage.saw_times("Flushed, reopen", count(&|write| write.good));
    coverage.saw_times("In flight, reopen", count(&|write| history.is_out(write.number)));
    coverage.saw_times("Unflushed, reopen", count(&|write| !write.good && !history.is_out(write.number)));
    if let Some(out) = &history.out {
        coverage.saw("restart with a sheet out");
        if out.some_landed && !out.pending.is_empty() {
            coverage.saw("restart with a sheet partly landed");
        }
    }
}

/// After a good report: Flushed writes that couldn't leave.
pub fn held_back(history: &History, coverage: &mut Coverage) {
    let flushed: Vec<&Write> = history.held.iter().filter(|write| write.good).collect();
    if flushed.iter().any(|write| history.is_pinned(write)) {
        coverage.saw("Flushed write held by a pin");
    }
    if flushed.iter().any(|write| !history.is_pinned(write)) {
        coverage.saw("Flushed write held behind another");
    }
}
