//! What the played histories have met, counted.

use crate::refusal::Refusal;
use std::collections::BTreeMap;
use std::fmt;

/// Everything that a long run must meet at least once.
#[rustfmt::skip]
pub const ALL: [&str; 39] = [
    "refused 1", "refused 2", "refused 3", "refused 4", "refused 5", "refused 6",
    "refused 7", "refused 8", "refused 9", "refused 10", "refused 11", "refused 12",
    "nothing to flush",
    "Unflushed, taken",
    "In flight, good",
    "In flight, bad",
    "Flushed, let go",
    "Unflushed, reopen",
    "In flight, reopen",
    "Flushed, reopen",
    "entry wrapped at the ring's end",
    "full batch of 32",
    "more than 32 waited for a batch",
    "sheet of several pieces",
    "run cut into pieces",
    "overlapping writes in a batch",
    "write came while its node's sheet was out",
    "Flushed write held by a pin",
    "Flushed write held behind another",
    "fill with fetched bytes, claim held",
    "claim held after a batch of the node landed since the fetch",
    "ticket asked, done",
    "ticket asked, not done",
    "some bytes landed, then bad",
    "restart with a sheet out",
    "restart with a sheet partly landed",
    "call went through on damage",
    "damage undone",
    "damage left by a restart",
];

#[derive(Default, Debug, Clone)]
pub struct Coverage(BTreeMap<&'static str, u64>);

impl Coverage {
    pub fn saw(&mut self, what: &'static str) {
        self.saw_times(what, 1);
    }

    pub fn saw_times(&mut self, what: &'static str, times: usize) {
        debug_assert!(ALL.contains(&what), "{what} is not counted");
        if times > 0 {
            *self.0.entry(what).or_default() += times as u64;
        }
    }

    pub fn saw_refusal(&mut self, refusal: Refusal) {
        self.saw(ALL[refusal.number() - 1]);
    }

    pub fn add(&mut self, other: &Coverage) {
        for (what, times) in &other.0 {
            *self.0.entry(what).or_default() += times;
        }
    }

    pub fn count(&self, what: &str) -> u64 {
        self.0.get(what).copied().unwrap_or(0)
    }

    pub fn missing(&self) -> Vec<&'static str> {
        ALL.into_iter().filter(|what| self.count(what) == 0).collect()
    }
}

impl fmt::Display for Coverage {
    fn fmt(&self, out: &mut fmt::Formatter) -> fmt::Result {
        ALL.iter().try_for_each(|what| writeln!(out, "{:>10}  {what}", self.count(what)))
    }
}
