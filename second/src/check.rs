//! Follows a played script and checks it against the history: demand 3, the fill claim, and every answer.

use crate::count;
use crate::coverage::Coverage;
use crate::expect::{Expected, expected};
use crate::history::History;
use crate::player::{Answer, Player};
use crate::ring::{self, NUMBER_LIMIT};
use crate::rules::{
    Checked, Fault, HELD, SHORE, STATE, begin_flush, check_fill, check_question, held_exactly, hold, number_is_next,
    shore_and_ring, state_tells, untouched, value_is,
};
use crate::script::Command;
use crate::shore::Files;

/// How far the history is known.
#[derive(Clone, Copy, PartialEq, Eq, Debug)]
pub enum Standing {
    /// No ring was made yet, or a call went through on a damaged one.
    Unknown,
    Followed,
    /// Ring or state were damaged, and no call has gone through since.
    Damaged,
}

/// One command as it was played.
pub struct Step<'a> {
    pub before: &'a Player,
    pub command: &'a Command,
    pub answer: &'a Answer,
    pub after: &'a Player,
}

pub struct Checker {
    pub history: History,
    pub standing: Standing,
    /// The files that the next ring's history starts from.
    pub starting: Files,
    /// Rules that `check_now` leaves out; for tests that another rule finds the fault as well.
    pub skipped: &'static [&'static str],
    pub coverage: Coverage,
}

impl Default for Checker {
    fn default() -> Checker {
        Checker {
            history: History::default(),
            standing: Standing::Unknown,
            starting: Files::new(),
            skipped: &[],
            coverage: Coverage::default(),
        }
    }
}

impl Checker {
    pub fn observe(&mut self, step: &Step) -> Checked {
        untouched(step)?;
        count::refusal(step.answer, &mut self.coverage);
        match step.command {
            Command::Look(_) => Ok(()),
            Command::Make { .. } => {
                self.made(step);
                self.check_now(step.after)
            }
            _ if is_damage(step.command) => {
                self.damaged(step);
                Ok(())
            }
            _ => match self.standing {
                Standing::Unknown => Ok(()),
                Standing::Damaged => self.after_damage(step),
                Standing::Followed => self.follow(step),
            },
        }
    }

    /// Demand 3 at this moment, which the shore may have changed.
    pub fn check_now(&self, player: &Player) -> Checked {
        if self.standing != Standing::Followed {
            return Ok(());
        }
        let reading = ring::read(&player.ring);
        let reading = reading.ok_or(Fault { rule: "readable", detail: "the ring isn't readable".into() })?;
        let wanted = |rule| !self.skipped.contains(&rule);
        if wanted(SHORE) {
            shore_and_ring(&self.history, &reading.entries)?;
        }
        if wanted(HELD) {
            held_exactly(&self.history, &reading.entries)?;
        }
        if wanted(STATE) {
            state_tells(&self.history, &player.state)?;
        }
        Ok(())
    }

    fn made(&mut self, step: &Step) {
        self.standing = Standing::Unknown;
        let slots = ring::slots_in(step.after.ring.len());
        if let (Answer::Done, Some(slots)) = (step.answer, slots) {
            self.standing = Standing::Followed;
            self.history = History::begin(slots, std::mem::take(&mut self.starting));
        }
    }

    /// Damage that is undone, or that touches nothing which counts, is none.
    fn damaged(&mut self, step: &Step) {
        if self.standing == Standing::Unknown {
            return;
        }
        // A next number further on is what very many tickets would have left behind.
        let next = step.after.state.next;
        let only_later = matches!(step.command, Command::SetNext(_))
            && self.standing == Standing::Followed
            && (self.history.next..=NUMBER_LIMIT).contains(&next);
        if only_later {
            self.history.next = next;
            return;
        }
        let sound = self.entries_held(step.after) && state_tells(&self.history, &step.after.state).is_ok();
        if sound && self.standing == Standing::Damaged {
            self.coverage.saw("damage undone");
        }
        self.standing = if sound { Standing::Followed } else { Standing::Damaged };
    }

    fn entries_held(&self, player: &Player) -> bool {
        let reading = ring::read(&player.ring);
        reading.is_some_and(|reading| held_exactly(&self.history, &reading.entries).is_ok())
    }

    fn after_damage(&mut self, step: &Step) -> Checked {
        let restarted = matches!(step.command, Command::Reopen) && matches!(step.answer, Answer::Value(_));
        if restarted && self.entries_held(step.before) {
            // Reopening looks at the ring alone, and that is whole.
            self.standing = Standing::Followed;
            self.coverage.saw("damage left by a restart");
            return self.follow(step);
        }
        let changed = step.before.ring != step.after.ring || step.before.state != step.after.state;
        if changed {
            self.coverage.saw("call went through on damage");
            self.standing = Standing::Unknown;
        }
        Ok(())
    }

    fn follow(&mut self, step: &Step) -> Checked {
        let expected = expected(&self.history, step.command);
        let given = match step.answer {
            Answer::Refused(refusal) => Expected::Refused(*refusal),
            Answer::Nothing => Expected::Nothing,
            _ => Expected::Value,
        };
        hold(given == expected, "refusals", || format!("{given:?} where {expected:?} is due"))?;
        if given == Expected::Value {
            count::step(&self.history, step, &mut self.coverage);
            self.apply(step)?;
        }
        self.check_now(step.after)
    }

    /// Takes a call that went through into the history, and checks its answer.
    fn apply(&mut self, step: &Step) -> Checked {
        let history = &mut self.history;
        match step.command {
            Command::Write { node, handle, offset, bytes } => {
                number_is_next(history, step.answer)?;
                history.accept(*node, *handle, *offset, bytes);
            }
            Command::Pin { node } => {
                number_is_next(history, step.answer)?;
                history.pin(*node);
            }
            Command::Ticket => {
                number_is_next(history, step.answer)?;
                let ticket = history.take_number();
                history.tickets.insert(ticket, history.accepted);
            }
            Command::Flush { node, .. } => begin_flush(history, *node, step)?,
            Command::Unpin { number } => {
                let left = history.unpin(*number);
                self.coverage.saw_times("Flushed, let go", left);
            }
            Command::Report { good: true, .. } => {
                let left = history.good();
                self.coverage.saw_times("Flushed, let go", left);
                count::held_back(history, &mut self.coverage);
            }
            Command::Report { good: false, .. } => history.bad(),
            Command::Reopen => {
                history.restart();
                value_is(step.answer, history.next, "reopening")?;
            }
            Command::Fill { .. } => check_fill(history, step, &mut self.coverage)?,
            _ => check_question(history, step)?,
        }
        Ok(())
    }
}

fn is_damage(command: &Command) -> bool {
    use Command::*;
    matches!(
        command,
        Poke { .. } | SetNext(_) | SetFlush(_) | SetCount(_) | SetNumber { .. } | SetPhase { .. } | SetPin { .. }
    )
}
