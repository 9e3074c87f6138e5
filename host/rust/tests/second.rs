//! The library through this crate against the second program: the same commands on both, and after each the same
//! answer, ring, state and buffer.

use second::generate::generate;
use second::player::{Answer, Player};
use second::refusal::Refusal;
use second::script::{Command, Line, lines, read_line};
use vibetorch::{Refused, raw};

const BLANK: u8 = 0xAA;

/// What a script works on, here with the library's state.
struct Host {
    ring: Vec<u8>,
    state: raw::State,
    buffer: Vec<u8>,
}

impl Host {
    fn new() -> Host {
        Host { ring: Vec::new(), state: raw::State::blank(), buffer: Vec::new() }
    }

    /// None: with this ring it is no command.
    fn run(&mut self, command: &Command) -> Option<Answer> {
        match *command {
            Command::Poke { place, byte } => {
                *self.ring.get_mut(place as usize)? = byte;
                Some(Answer::Done)
            }
            _ if self.set(command) => Some(Answer::Done),
            _ => Some(self.call(command).unwrap_or_else(refused)),
        }
    }

    fn set(&mut self, command: &Command) -> bool {
        let state = &mut self.state;
        match *command {
            Command::SetNext(next) => state.next = next,
            Command::SetFlush(flush) => state.flush = flush,
            Command::SetCount(count) => state.count = count as usize,
            Command::SetNumber { place, number } => state.writes[place].number = number,
            Command::SetPhase { place, phase } => state.writes[place].phase = phase,
            Command::SetPin { place, number, mark, node } => state.pins[place] = raw::PinRecord { number, mark, node },
            _ => return false,
        }
        true
    }

    fn call(&mut self, command: &Command) -> Result<Answer, Refused> {
        let Host { ring, state, buffer } = self;
        Ok(match *command {
            Command::Make { length } => {
                *ring = vec![BLANK; length];
                raw::make(ring, state).map(|()| Answer::Done)?
            }
            Command::Reopen => Answer::Value(raw::reopen(ring, state)?),
            Command::Write { node, handle, offset, ref bytes } => {
                Answer::Value(raw::write(ring, state, node, handle, offset, bytes)?)
            }
            Command::Pin { node } => Answer::Value(raw::pin(ring, state, node)?),
            Command::Unpin { number } => raw::unpin(ring, state, number).map(|()| Answer::Done)?,
            Command::Fill { pin, node, offset, length, fetched, ref bytes } => {
                *buffer = vec![BLANK; length];
                buffer[..bytes.len()].copy_from_slice(bytes);
                Answer::Value(raw::fill(ring, state, pin, node, offset, fetched as usize, buffer)? as u64)
            }
            Command::End { node } => Answer::Value(raw::cached_end(ring, state, node)?.into()),
            Command::Flush { node, length } => {
                *buffer = vec![BLANK; length];
                begun(raw::start(ring, state, node, buffer)?)
            }
            Command::Report { number, good } => raw::report(ring, state, number, good).map(|()| Answer::Done)?,
            Command::Ticket => Answer::Value(raw::take_ticket(ring, state)?),
            Command::Ask { number, node } => Answer::Value(raw::ask_ticket(ring, state, number, node)?.into()),
            Command::Turn => Answer::Value(raw::whose_turn(ring, state)?.into()),
            _ => unreachable!("looks and damage are no calls"),
        })
    }
}

fn begun(flush: Option<raw::Begun>) -> Answer {
    match flush {
        None => Answer::Nothing,
        Some(raw::Begun { number, length }) => Answer::Begun { number, length: length as u64 },
    }
}

/// The second program's name for the reason, found by its number.
fn refused(refused: Refused) -> Answer {
    #[rustfmt::skip]
    let all = [
        Refusal::NodeZero, Refusal::WriteLength, Refusal::PastFileLimit, Refusal::RingFull, Refusal::NumbersUsedUp,
        Refusal::FlushUnderWay, Refusal::NotTheFlush, Refusal::RingUnreadable, Refusal::NoLivePin,
        Refusal::TooManyPins, Refusal::BufferLength, Refusal::StateDoesNotFit,
    ];
    let same = |refusal: &Refusal| refusal.number() == refused.number() as usize;
    Answer::Refused(all.into_iter().find(same).expect("both know the same twelve"))
}

/// Every field and place of both states.
fn same_state(mine: &raw::State, other: &second::state::State) -> bool {
    let listed = mine.writes.iter().zip(&other.listed);
    let pins = mine.pins.iter().zip(&other.pins);
    (mine.next, mine.flush, mine.count as u64) == (other.next, other.flush, other.count)
        && listed.into_iter().all(|(mine, other)| (mine.number, mine.phase) == (other.number, other.phase))
        && pins.into_iter().all(|(a, b)| (a.number, a.mark, a.node) == (b.number, b.mark, b.node))
}

/// Plays a script in both; gives the count of calls that were not refused, and of those that were.
fn compare(script: &[u8]) -> (usize, usize) {
    let (mut host, mut player) = (Host::new(), Player::default());
    let (mut done, mut no) = (0, 0);
    for (line, count) in lines(script).zip(1..) {
        let Line::Command(command) = read_line(line) else { continue };
        if matches!(command, Command::Look(_)) {
            continue;
        }
        let (mine, other) = (host.run(&command), player.run(&command));
        assert_eq!(mine, other, "line {count}: {command:?}");
        assert_eq!(host.ring, player.ring, "line {count}: {command:?}");
        assert_eq!(host.buffer, player.buffer, "line {count}: {command:?}");
        assert!(same_state(&host.state, &player.state), "line {count}: {command:?}");
        if matches!(mine, Some(Answer::Refused(_))) { no += 1 } else { done += 1 }
    }
    (done, no)
}

#[test]
fn the_papers_cases() {
    compare(include_bytes!("../../../second/cases.script"));
}

/// Even seeds: histories as they happen. Odd seeds: bytes of the ring and fields of the state are damaged.
#[test]
fn random_histories() {
    let counts = (0..60).map(|seed| compare(&generate(seed, 500).script));
    let (done, no) = counts.fold((0, 0), |sum, count| (sum.0 + count.0, sum.1 + count.1));
    assert!(done > 15_000 && no > 2_000, "{done} done, {no} refused: the histories are too tame");
}
