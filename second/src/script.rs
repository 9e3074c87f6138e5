//! The bench script: lines, and the command that a line is.

use crate::words::{byte, bytes, length, number, small};

const LONGEST_LINE: usize = 300_000;

#[derive(Clone, PartialEq, Eq, Debug)]
pub enum Command {
    Make { length: usize },
    Reopen,
    Write { node: u32, handle: u32, offset: u32, bytes: Vec<u8> },
    Pin { node: u32 },
    Unpin { number: u64 },
    Fill { pin: u64, node: u32, offset: u32, length: usize, fetched: u64, bytes: Vec<u8> },
    End { node: u32 },
    Flush { node: u32, length: usize },
    Report { number: u64, good: bool },
    Ticket,
    Ask { number: u64, node: u32 },
    Turn,
    Look(Look),
    Poke { place: u64, byte: u8 },
    SetNext(u64),
    SetFlush(u64),
    SetCount(u64),
    SetNumber { place: usize, number: u64 },
    SetPhase { place: usize, phase: u8 },
    SetPin { place: usize, number: u64, mark: u64, node: u32 },
}

#[derive(Clone, PartialEq, Eq, Debug)]
pub enum Look {
    Ring { from: u64, to: u64 },
    Buffer { from: u64, to: u64 },
    SumRing,
    SumBuffer,
    State,
    Show,
}

/// What stands on a line.
#[derive(Clone, PartialEq, Eq, Debug)]
pub enum Line {
    Skipped,
    TooLong,
    NoCommand,
    Command(Command),
}

/// The lines of a script, without their ends.
pub fn lines(script: &[u8]) -> impl Iterator<Item = &[u8]> {
    script.split_inclusive(|&byte| byte == b'\n').map(|line| line.strip_suffix(b"\n").unwrap_or(line))
}

pub fn read_line(line: &[u8]) -> Line {
    if line.len() > LONGEST_LINE {
        return Line::TooLong;
    }
    if line.first() == Some(&b'#') || line.iter().all(|&byte| byte == b' ') {
        return Line::Skipped;
    }
    let words: Vec<&[u8]> = line.split(|&byte| byte == b' ').collect();
    command(&words).map_or(Line::NoCommand, Line::Command)
}

fn command(words: &[&[u8]]) -> Option<Command> {
    let (&name, rest) = words.split_first()?;
    match (name, rest) {
        (b"set", _) => set(rest),
        (b"poke", &[place, value]) => Some(Command::Poke { place: number(place)?, byte: byte(value)? }),
        (b"ring" | b"buffer" | b"sum" | b"state" | b"show", _) => look(words).map(Command::Look),
        _ => call(name, rest),
    }
}

fn call(name: &[u8], rest: &[&[u8]]) -> Option<Command> {
    Some(match (name, rest) {
        (b"make", &[len]) => Command::Make { length: length(len)? },
        (b"reopen", []) => Command::Reopen,
        (b"write", &[node, handle, offset, content]) => Command::Write {
            node: small(node)?,
            handle: small(handle)?,
            offset: small(offset)?,
            bytes: bytes(content)?,
        },
        (b"pin", &[node]) => Command::Pin { node: small(node)? },
        (b"unpin", &[pin]) => Command::Unpin { number: number(pin)? },
        (b"fill", rest) => fill(rest)?,
        (b"end", &[node]) => Command::End { node: small(node)? },
        (b"flush", &[node, len]) => Command::Flush { node: small(node)?, length: length(len)? },
        (b"report", &[flush, b"good"]) => Command::Report { number: number(flush)?, good: true },
        (b"report", &[flush, b"bad"]) => Command::Report { number: number(flush)?, good: false },
        (b"ticket", []) => Command::Ticket,
        (b"ask", &[ticket, node]) => Command::Ask { number: number(ticket)?, node: small(node)? },
        (b"turn", []) => Command::Turn,
        _ => return None,
    })
}

fn fill(rest: &[&[u8]]) -> Option<Command> {
    let &[pin, node, offset, len, fetched, content] = rest else { return None };
    let (length, bytes) = (length(len)?, bytes(content)?);
    let (pin, node, offset, fetched) = (number(pin)?, small(node)?, small(offset)?, number(fetched)?);
    (bytes.len() <= length).then_some(Command::Fill { pin, node, offset, length, fetched, bytes })
}

fn look(words: &[&[u8]]) -> Option<Look> {
    Some(match *words {
        [b"ring", from, to] => Look::Ring { from: number(from)?, to: number(to)? },
        [b"buffer", from, to] => Look::Buffer { from: number(from)?, to: number(to)? },
        [b"sum", b"ring"] => Look::SumRing,
        [b"sum", b"buffer"] => Look::SumBuffer,
        [b"state"] => Look::State,
        [b"show"] => Look::Show,
        _ => return None,
    })
}

fn set(rest: &[&[u8]]) -> Option<Command> {
    Some(match *rest {
        [b"next", value] => Command::SetNext(number(value)?),
        [b"flush", value] => Command::SetFlush(number(value)?),
        [b"count", value] => Command::SetCount(number(value)?),
        [b"number", place, value] => {
            Command::SetNumber { place: below(place, crate::state::LISTED)?, number: number(value)? }
        }
        [b"phase", place, value] => {
            Command::SetPhase { place: below(place, crate::state::LISTED)?, phase: small(value)? }
        }
        [b"pin", place, pin, mark, node] => Command::SetPin {
            place: below(place, crate::state::PINS)?,
            number: number(pin)?,
            mark: number(mark)?,
            node: small(node)?,
        },
        _ => return None,
    })
}

fn below(word: &[u8], bound: usize) -> Option<usize> {
    small(word).filter(|&place| place < bound)
}
