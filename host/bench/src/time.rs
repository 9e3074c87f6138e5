//! Timing: both sides in turn, each from the same box. A time is the median of many runs, in the quietest of some
//! rounds over all cases, since the machine may have other work to do.

use crate::call::{Answer, Side};
use crate::case::Case;
use std::hint::black_box;
use std::time::{Duration, Instant};

pub const ROUNDS: usize = 7;
pub const RUNS: usize = 201;
/// A round of slow calls is shorter.
const ENOUGH: Duration = Duration::from_millis(200);
const LEAST_RUNS: usize = 11;

/// In nanoseconds.
pub struct Times {
    pub library: u64,
    pub ordinary: u64,
}

impl Times {
    pub fn ratio(&self) -> f64 {
        self.library as f64 / self.ordinary.max(1) as f64
    }
}

/// Times each case, having seen that both sides answer and leave the same bytes.
pub fn measure(cases: &[Case]) -> Vec<Times> {
    cases.iter().for_each(compare);
    let mut quietest: Vec<Times> = cases.iter().map(round).collect();
    for _ in 1..ROUNDS {
        for (case, least) in cases.iter().zip(&mut quietest) {
            let times = round(case);
            least.library = least.library.min(times.library);
            least.ordinary = least.ordinary.min(times.ordinary);
        }
    }
    quietest
}

fn compare(case: &Case) {
    let Case { name, call, library, ordinary } = case;
    let (mut mine, mut other) = (library.clone(), ordinary.clone());
    let answer = call.of_library(&mut mine);
    assert!(answer.is_some(), "{name} is refused");
    assert_eq!(answer, call.of_ordinary(&mut other), "{name}");
    assert!(mine.ring == other.ring && mine.buffer == other.buffer, "{name}: the bytes differ");
}

fn round(case: &Case) -> Times {
    let (mut mine, mut other) = (case.library.clone(), case.ordinary.clone());
    let (mut of_library, mut of_ordinary) = (Vec::new(), Vec::new());
    let began = Instant::now();
    while of_library.len() < RUNS && (of_library.len() < LEAST_RUNS || began.elapsed() < ENOUGH) {
        restore(&mut mine, &case.library);
        of_library.push(once(|| case.call.of_library(black_box(&mut mine))));
        restore(&mut other, &case.ordinary);
        of_ordinary.push(once(|| case.call.of_ordinary(black_box(&mut other))));
    }
    Times { library: median(of_library), ordinary: median(of_ordinary) }
}

/// Puts the box back as it was, untimed, so that every run does the same work on memory that is as warm.
fn restore<State: Clone>(side: &mut Side<State>, from: &Side<State>) {
    side.ring.copy_from_slice(&from.ring);
    side.state.clone_from(&from.state);
    side.buffer.copy_from_slice(&from.buffer);
}

fn once(call: impl FnOnce() -> Answer) -> u64 {
    let start = Instant::now();
    black_box(call());
    start.elapsed().as_nanos() as u64
}

fn median(mut times: Vec<u64>) -> u64 {
    let middle = times.len() / 2;
    *times.select_nth_unstable(middle).1
}
