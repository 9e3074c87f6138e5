//! The sheet: what a batch makes of the file, in pieces.

use crate::ring::{Entry, LARGEST_WRITE};
use std::ops::Range;

/// The whole sheet for a batch that is given in number order.
pub fn sheet(node: u32, batch: &[Entry]) -> Vec<u8> {
    let runs = runs(batch);
    let pieces: Vec<Range<u32>> = runs.iter().flat_map(cut).collect();
    let mut sheet = Vec::new();
    sheet.extend((pieces.len() as u32).to_le_bytes());
    sheet.extend(node.to_le_bytes());
    for piece in &pieces {
        sheet.extend(piece.start.to_le_bytes());
        sheet.extend((piece.len() as u32).to_le_bytes());
    }
    // The pieces of a run follow each other, so their bytes are the run's bytes.
    for run in &runs {
        let from = sheet.len();
        sheet.resize(from + run.len(), 0);
        for (place, bytes) in batch.iter().flat_map(|entry| entry.parts()) {
            lay(&mut sheet[from..], run.start, place, bytes);
        }
    }
    sheet
}

/// The maximal runs of covered bytes, ascending.
fn runs(batch: &[Entry]) -> Vec<Range<u32>> {
    let mut covered: Vec<Range<u32>> = batch.iter().map(|entry| entry.offset..entry.end()).collect();
    covered.sort_by_key(|range| range.start);
    let mut runs: Vec<Range<u32>> = Vec::new();
    for range in covered {
        match runs.last_mut() {
            Some(run) if range.start <= run.end => run.end = run.end.max(range.end),
            _ => runs.push(range),
        }
    }
    runs
}

fn cut(run: &Range<u32>) -> impl Iterator<Item = Range<u32>> {
    let end = run.end;
    run.clone().step_by(LARGEST_WRITE).map(move |start| start..end.min(start + LARGEST_WRITE as u32))
}

/// Lays bytes that belong at `place` over a window on the file that begins at `start`; what lies outside is left out.
pub fn lay(window: &mut [u8], start: u32, place: u32, bytes: &[u8]) {
    let (start, place) = (start as usize, place as usize);
    let from = place.max(start);
    let to = (place + bytes.len()).min(start + window.len());
    if from < to {
        window[from - start..to - start].copy_from_slice(&bytes[from - place..to - place]);
    }
}
