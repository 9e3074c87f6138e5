//! One call, made of the library and of the second program.

use second::model;
use vibetorch::raw;

/// Ring, state and lent buffer, once for each side.
#[derive(Clone)]
pub struct Side<State> {
    pub ring: Vec<u8>,
    pub state: State,
    pub buffer: Vec<u8>,
}

pub type Library = Side<raw::State>;
pub type Ordinary = Side<second::state::State>;

#[derive(Clone)]
pub enum Call {
    Make,
    Reopen,
    Write { node: u32, offset: u32, bytes: Vec<u8> },
    Pin { node: u32 },
    Unpin { number: u64 },
    Fill { pin: u64, node: u32, fetched: usize },
    End { node: u32 },
    Start { node: u32 },
    Report { number: u64, good: bool },
    Ticket,
    Ask { ticket: u64, node: u32 },
    Turn,
}

/// The answer as two numbers: value and sheet length. None: refused.
pub type Answer = Option<(u64, u64)>;

impl Call {
    pub fn of_library(&self, side: &mut Library) -> Answer {
        let Side { ring, state, buffer } = side;
        let value = match *self {
            Call::Make => raw::make(ring, state).map(|()| 0),
            Call::Reopen => raw::reopen(ring, state),
            Call::Write { node, offset, ref bytes } => raw::write(ring, state, node, 0, offset, bytes),
            Call::Pin { node } => raw::pin(ring, state, node),
            Call::Unpin { number } => raw::unpin(ring, state, number).map(|()| 0),
            Call::Fill { pin, node, fetched } => {
                raw::fill(ring, state, pin, node, 0, fetched, buffer).map(|count| count as u64)
            }
            Call::End { node } => raw::cached_end(ring, state, node).map(u64::from),
            Call::Start { node } => {
                let begun = raw::start(ring, state, node, buffer).ok()??;
                return Some((begun.number, begun.length as u64));
            }
            Call::Report { number, good } => raw::report(ring, state, number, good).map(|()| 0),
            Call::Ticket => raw::take_ticket(ring, state),
            Call::Ask { ticket, node } => raw::ask_ticket(ring, state, ticket, node).map(u64::from),
            Call::Turn => raw::whose_turn(ring, state).map(u64::from),
        };
        value.ok().map(|value| (value, 0))
    }

    pub fn of_ordinary(&self, side: &mut Ordinary) -> Answer {
        let Side { ring, state, buffer } = side;
        let value = match *self {
            Call::Make => model::make(ring, state).map(|()| 0),
            Call::Reopen => model::reopen(ring, state),
            Call::Write { node, offset, ref bytes } => model::write(ring, state, node, 0, offset, bytes),
            Call::Pin { node } => model::pin(ring, state, node),
            Call::Unpin { number } => model::unpin(ring, state, number).map(|()| 0),
            Call::Fill { pin, node, fetched } => {
                model::fill(ring, state, pin, node, 0, buffer, fetched as u64).map(|count| count as u64)
            }
            Call::End { node } => model::end(ring, state, node).map(u64::from),
            Call::Start { node } => match model::flush(ring, state, node, buffer).ok()? {
                model::Flush::Begun { number, length } => return Some((number, length as u64)),
                model::Flush::Nothing => return None,
            },
            Call::Report { number, good } => model::report(ring, state, number, good).map(|()| 0),
            Call::Ticket => model::ticket(ring, state),
            Call::Ask { ticket, node } => model::ask(ring, state, ticket, node).map(u64::from),
            Call::Turn => model::turn(ring, state).map(u64::from),
        };
        value.ok().map(|value| (value, 0))
    }
}
