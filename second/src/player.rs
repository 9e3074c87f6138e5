//! Plays a script: commands on a ring, a state and a buffer.

use crate::crc::crc32;
use crate::model::{self, Flush};
use crate::picture::picture;
use crate::refusal::Refusal;
use crate::script::{Command, Line, Look, lines, read_line};
use crate::state::{Listed, Pin, State};
use crate::words::hex;
use std::fmt;

const BLANK: u8 = 0xAA;

#[derive(Clone, PartialEq, Eq, Debug)]
pub enum Answer {
    Done,
    Value(u64),
    Begun { number: u64, length: u64 },
    Nothing,
    Refused(Refusal),
    Text(String),
}

impl fmt::Display for Answer {
    fn fmt(&self, out: &mut fmt::Formatter) -> fmt::Result {
        match self {
            Answer::Done => write!(out, "ok"),
            Answer::Value(value) => write!(out, "ok {value}"),
            Answer::Begun { number, length } => write!(out, "ok {number} {length}"),
            Answer::Nothing => write!(out, "nothing"),
            Answer::Refused(refusal) => write!(out, "refused {}", refusal.number()),
            Answer::Text(text) => write!(out, "ok {text}"),
        }
    }
}

#[derive(Clone, PartialEq, Eq, Debug)]
pub struct Player {
    pub ring: Vec<u8>,
    pub state: State,
    pub buffer: Vec<u8>,
}

impl Default for Player {
    fn default() -> Player {
        Player { ring: Vec::new(), state: State::blank(), buffer: Vec::new() }
    }
}

/// Everything that a script writes.
pub fn play(script: &[u8]) -> Vec<u8> {
    let mut player = Player::default();
    lines(script).zip(1..).flat_map(|(line, count)| player.line(line, count).into_bytes()).collect()
}

impl Player {
    /// What one line writes, its end included.
    pub fn line(&mut self, line: &[u8], count: usize) -> String {
        match read_line(line) {
            Line::Skipped => String::new(),
            Line::TooLong => format!("? {count} too long\n"),
            Line::NoCommand => format!("? {count}\n"),
            Line::Command(command) => match self.run(&command) {
                Some(answer) => format!("{answer}\n"),
                None => format!("? {count}\n"),
            },
        }
    }

    /// None: with ring and buffer as they are, this is no command.
    pub fn run(&mut self, command: &Command) -> Option<Answer> {
        match command {
            Command::Look(look) => self.look(look),
            Command::Poke { place, byte } => {
                *self.ring.get_mut(usize::try_from(*place).ok()?)? = *byte;
                Some(Answer::Done)
            }
            _ if self.set(command) => Some(Answer::Done),
            _ => Some(self.call(command).unwrap_or_else(Answer::Refused)),
        }
    }

    fn call(&mut self, command: &Command) -> model::Answer<Answer> {
        let Player { ring, state, buffer } = self;
        Ok(match *command {
            Command::Make { length } => {
                *ring = vec![BLANK; length];
                model::make(ring, state).map(|()| Answer::Done)?
            }
            Command::Reopen => Answer::Value(model::reopen(ring, state)?),
            Command::Write { node, handle, offset, ref bytes } => {
                Answer::Value(model::write(ring, state, node, handle, offset, bytes)?)
            }
            Command::Pin { node } => Answer::Value(model::pin(ring, state, node)?),
            Command::Unpin { number } => model::unpin(ring, state, number).map(|()| Answer::Done)?,
            Command::Fill { pin, node, offset, length, fetched, ref bytes } => {
                *buffer = vec![BLANK; length];
                buffer[..bytes.len()].copy_from_slice(bytes);
                Answer::Value(model::fill(ring, state, pin, node, offset, buffer, fetched)? as u64)
            }
            Command::End { node } => Answer::Value(model::end(ring, state, node)?.into()),
            Command::Flush { node, length } => {
                *buffer = vec![BLANK; length];
                begun(model::flush(ring, state, node, buffer)?)
            }
            Command::Report { number, good } => model::report(ring, state, number, good).map(|()| Answer::Done)?,
            Command::Ticket => Answer::Value(model::ticket(ring, state)?),
            Command::Ask { number, node } => Answer::Value(model::ask(ring, state, number, node)?.into()),
            Command::Turn => Answer::Value(model::turn(ring, state)?.into()),
            _ => unreachable!("looks and damage are no calls"),
        })
    }

    /// Whether the command was one that sets a part of the state.
    fn set(&mut self, command: &Command) -> bool {
        let state = &mut self.state;
        match *command {
            Command::SetNext(next) => state.next = next,
            Command::SetFlush(flush) => state.flush = flush,
            Command::SetCount(count) => state.count = count,
            Command::SetNumber { place, number } => state.listed[place].number = number,
            Command::SetPhase { place, phase } => state.listed[place].phase = phase,
            Command::SetPin { place, number, mark, node } => state.pins[place] = Pin { number, mark, node },
            _ => return false,
        }
        true
    }

    fn look(&self, look: &Look) -> Option<Answer> {
        let text = match *look {
            Look::Ring { from, to } => hex(part(&self.ring, from, to)?),
            Look::Buffer { from, to } => hex(part(&self.buffer, from, to)?),
            Look::SumRing => format!("{:08X}", crc32(&self.ring)),
            Look::SumBuffer => format!("{:08X}", crc32(&self.buffer)),
            Look::State => state_words(&self.state),
            Look::Show => {
                return Some(picture(&self.ring, &self.state).map_or_else(Answer::Refused, Answer::Text));
            }
        };
        Some(Answer::Text(text))
    }
}

fn begun(flush: Flush) -> Answer {
    match flush {
        Flush::Nothing => Answer::Nothing,
        Flush::Begun { number, length } => Answer::Begun { number, length: length as u64 },
    }
}

fn part(bytes: &[u8], from: u64, to: u64) -> Option<&[u8]> {
    bytes.get(usize::try_from(from).ok()?..usize::try_from(to).ok()?)
}

fn state_words(state: &State) -> String {
    let mut words = vec![format!("{} {} {} w", state.next, state.flush, state.count)];
    let listed = state.count.min(state.listed.len() as u64) as usize;
    words.extend(state.listed[..listed].iter().map(|Listed { number, phase }| format!("{number}:{phase}")));
    words.push("p".to_string());
    let pins = state.pins.iter().enumerate().filter(|(_, pin)| pin.lives());
    words.extend(pins.map(|(place, Pin { number, mark, node })| format!("{place}:{number}:{mark}:{node}")));
    words.join(" ")
}
