//! Boxes that are broken in the ways document 01 warns of. The checks must find each one, from outside: nothing here
//! looks at the phases and marks in the state. And the whole box must pass.

use second::fit::{self, Held};
use second::generate::{Twist, generate_twisted};
use second::model;
use second::player::{Answer, Player};
use second::refusal::Refusal;
use second::ring::{self, Entry, NewEntry};
use second::rules::{HELD, SHORE, STATE};
use second::script::Command;
use second::sheet::sheet;
use second::state::Phase;

const SEEDS: u64 = 200;
const CALLS: usize = 300;

/// The rule that first tells on a box, for each of many histories without damage.
fn rules_broken(twist: Twist, skipped: &'static [&'static str]) -> impl Iterator<Item = &'static str> {
    let seeds = (0..SEEDS).map(|index| 2 * index);
    seeds.filter_map(move |seed| generate_twisted(seed, CALLS, twist, skipped).fault).map(|(_, fault)| fault.rule)
}

/// In one of the histories, this rule is the first to tell.
fn finds(rule: &str, twist: Twist, skipped: &'static [&'static str]) {
    assert!(rules_broken(twist, skipped).any(|found| found == rule), "{rule} never told");
}

/// The ring again with only those entries that stay.
fn rebuild(player: &mut Player, stays: impl Fn(&Held) -> bool) {
    let old = player.ring.clone();
    let Some(reading) = ring::read(&old) else { return };
    let held = reading.entries.iter().zip(&player.state.listed);
    let held = held.map(|(&entry, listed)| Held { entry, phase: Phase::from_byte(listed.phase).unwrap() });
    let kept: Vec<Held> = held.filter(stays).collect();
    ring::clear(&mut player.ring);
    for Held { entry, .. } in &kept {
        let Entry { number, node, handle, offset, .. } = *entry;
        ring::store(&mut player.ring, &NewEntry { number, node, handle, offset, bytes: &entry.to_vec() });
    }
    player.state.list(kept.iter().map(|write| (write.entry.number, write.phase)));
}

#[test]
fn whole_box_passes() {
    assert_eq!(rules_broken(|_, _, _, _| (), &[]).next(), None);
}

/// A pin's own number is its mark while older writes wait.
fn own_number_as_mark(_: &Player, command: &Command, after: &mut Player, answer: &mut Answer) {
    if let (Command::Pin { .. }, Answer::Value(number)) = (command, answer) {
        let pin = after.state.pins.iter_mut().find(|pin| pin.number == *number);
        pin.unwrap().mark = *number;
    }
}

#[test]
fn own_number_as_mark_is_found() {
    finds(HELD, own_number_as_mark, &[STATE]);
    finds("fill claim", own_number_as_mark, &[STATE, HELD, SHORE]);
}

/// At a good report, writes that came while the sheet was out are Flushed too.
fn newer_writes_flushed(before: &Player, command: &Command, after: &mut Player, answer: &mut Answer) {
    let Command::Report { number, good: true } = *command else { return };
    if *answer != Answer::Done {
        return;
    }
    let mut again = before.clone();
    let entries = ring::read(&before.ring).unwrap().entries;
    let listed = &mut again.state.listed;
    let out = entries.iter().zip(listed.iter()).find(|(_, listed)| listed.phase == 1).unwrap().0.node;
    for (entry, listed) in entries.iter().zip(listed) {
        if entry.node == out && listed.phase == 0 {
            listed.phase = 1;
        }
    }
    model::report(&mut again.ring, &mut again.state, number, true).unwrap();
    *after = again;
}

#[test]
fn newer_writes_flushed_is_found() {
    finds(SHORE, newer_writes_flushed, &[STATE]);
    finds(HELD, newer_writes_flushed, &[STATE, SHORE]);
    finds("ticket", newer_writes_flushed, &[STATE, HELD, SHORE]);
}

fn bad_taken_for_good(before: &Player, command: &Command, after: &mut Player, answer: &mut Answer) {
    if let (Command::Report { number, good: false }, Answer::Done) = (command, answer) {
        *after = before.clone();
        model::report(&mut after.ring, &mut after.state, *number, true).unwrap();
    }
}

#[test]
fn bad_taken_for_good_is_found() {
    finds(SHORE, bad_taken_for_good, &[STATE]);
    finds(HELD, bad_taken_for_good, &[STATE, SHORE]);
}

fn sheet_in_offset_order(_: &Player, command: &Command, after: &mut Player, answer: &mut Answer) {
    let (Command::Flush { node, .. }, Answer::Begun { length, .. }) = (command, answer) else { return };
    let entries = ring::read(&after.ring).unwrap().entries;
    let with_phase = entries.iter().zip(&after.state.listed);
    let mut batch: Vec<Entry> = with_phase.filter(|(_, listed)| listed.phase == 1).map(|(entry, _)| *entry).collect();
    batch.sort_by_key(|entry| entry.offset);
    after.buffer[..*length as usize].copy_from_slice(&sheet(*node, &batch));
}

#[test]
fn sheet_in_offset_order_is_found() {
    finds("sheet", sheet_in_offset_order, &[STATE]);
}

/// A Flushed write leaves though an older one is held.
fn leaves_from_the_middle(_: &Player, command: &Command, after: &mut Player, answer: &mut Answer) {
    let lets_go = matches!(command, Command::Report { good: true, .. } | Command::Unpin { .. });
    if lets_go && *answer == Answer::Done {
        let state = after.state.clone();
        rebuild(after, |write| !fit::is_due(write, &state));
    }
}

#[test]
fn leaving_from_the_middle_is_found() {
    finds(HELD, leaves_from_the_middle, &[STATE]);
}

/// The same, and the ring still has it: reopening would find it again.
fn forgotten_in_the_middle(before: &Player, command: &Command, after: &mut Player, answer: &mut Answer) {
    let ring = after.ring.clone();
    leaves_from_the_middle(before, command, after, answer);
    after.ring = ring;
}

#[test]
fn forgetting_in_the_middle_is_found() {
    finds("refusals", forgotten_in_the_middle, &[STATE]);
}

/// Only what no good flush has had comes back.
fn reopening_drops_flushed(before: &Player, command: &Command, after: &mut Player, answer: &mut Answer) {
    if let (Command::Reopen, Answer::Value(next)) = (command, answer) {
        after.state.listed = before.state.listed;
        rebuild(after, |write| write.phase != Phase::Flushed);
        *next = model::reopen(&after.ring, &mut after.state).unwrap();
    }
}

#[test]
fn reopening_drops_flushed_is_found() {
    finds(HELD, reopening_drops_flushed, &[STATE]);
    finds("reopening", reopening_drops_flushed, &[STATE]);
}

/// The impostors of "How firmly each answer is tied down".
fn refuses_every_write(before: &Player, command: &Command, after: &mut Player, answer: &mut Answer) {
    if let (Command::Write { .. }, Answer::Value(_)) = (command, &answer) {
        *after = before.clone();
        *answer = Answer::Refused(Refusal::RingFull);
    }
}

fn nothing_to_every_flush(before: &Player, command: &Command, after: &mut Player, answer: &mut Answer) {
    if let (Command::Flush { length, .. }, Answer::Begun { .. }) = (command, &answer) {
        *after = before.clone();
        after.buffer = vec![0xAA; *length];
        *answer = Answer::Nothing;
    }
}

fn same_sheet_each_time(_: &Player, command: &Command, after: &mut Player, answer: &mut Answer) {
    if let (Command::Flush { .. }, Answer::Begun { length, .. }) = (command, answer) {
        after.buffer[..*length as usize].fill(1);
    }
}

fn idle_on_good(before: &Player, command: &Command, after: &mut Player, answer: &mut Answer) {
    if let (Command::Report { good: true, .. }, Answer::Done) = (command, answer) {
        *after = before.clone();
    }
}

fn flushed_at_the_start(_: &Player, command: &Command, after: &mut Player, answer: &mut Answer) {
    match (command, &answer) {
        (Command::Flush { .. }, Answer::Begun { number, .. }) => {
            model::report(&mut after.ring, &mut after.state, *number, true).unwrap();
        }
        (Command::Report { .. }, Answer::Refused(Refusal::NotTheFlush)) => *answer = Answer::Done,
        _ => {}
    }
}

fn invents_the_count(_: &Player, command: &Command, _: &mut Player, answer: &mut Answer) {
    if let (Command::Fill { length, .. }, Answer::Value(count)) = (command, answer) {
        *count = *length as u64;
    }
}

fn every_ticket_done(_: &Player, command: &Command, _: &mut Player, answer: &mut Answer) {
    if let (Command::Ask { .. }, Answer::Value(done)) = (command, answer) {
        *done = 1;
    }
}

/// A refused write takes a number all the same.
fn refusal_takes_a_number(_: &Player, command: &Command, after: &mut Player, answer: &mut Answer) {
    if let (Command::Write { .. }, Answer::Refused(Refusal::RingFull)) = (command, answer) {
        after.state.next += 1;
    }
}

#[test]
fn impostors_are_found() {
    finds("refusals", refuses_every_write, &[STATE]);
    finds("refusals", nothing_to_every_flush, &[STATE]);
    finds("sheet", same_sheet_each_time, &[STATE]);
    finds("refusals", idle_on_good, &[STATE, HELD]);
    finds(HELD, idle_on_good, &[STATE]);
    finds(SHORE, flushed_at_the_start, &[STATE]);
    finds("fill claim", invents_the_count, &[STATE]);
    finds("ticket", every_ticket_done, &[STATE]);
    finds("untouched", refusal_takes_a_number, &[STATE]);
}
