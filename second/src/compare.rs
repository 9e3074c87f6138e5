//! Plays histories, by itself or against another program.

use crate::coverage::Coverage;
use crate::generate::generate;
use crate::player::{Player, play};
use crate::script::lines;
use crate::shrink::shrink;
use std::ffi::OsString;
use std::io::{self, Read, Write};
use std::process::{Command, Stdio};
use std::thread;

/// Runs of fewer calls than this need not meet everything.
const ENOUGH_CALLS: u64 = 20_000;

/// Another program that reads a script and writes its answers.
pub struct Other {
    pub program: OsString,
    pub arguments: Vec<OsString>,
}

impl Other {
    /// What it writes. A failed exit is told in a last line, so that it counts as a difference.
    pub fn play(&self, script: &[u8]) -> io::Result<Vec<u8>> {
        let mut command = Command::new(&self.program);
        command.args(&self.arguments).stdin(Stdio::piped()).stdout(Stdio::piped());
        let mut child = command.spawn()?;
        let mut input = child.stdin.take().ok_or(io::ErrorKind::BrokenPipe)?;
        let mut from = child.stdout.take().ok_or(io::ErrorKind::BrokenPipe)?;
        let mut output = Vec::new();
        // Written beside the reading, so that neither side waits for the other. A program that ends early shows in
        // its output.
        thread::scope(|scope| {
            scope.spawn(move || input.write_all(script));
            from.read_to_end(&mut output)
        })?;
        let status = child.wait()?;
        if !status.success() {
            output.extend(format!("({status})\n").into_bytes());
        }
        Ok(output)
    }

    fn name(&self) -> String {
        self.program.to_string_lossy().into_owned()
    }
}

/// Which histories to play.
#[derive(Clone, Copy)]
pub struct Range {
    pub from: u64,
    pub count: u64,
    pub calls: usize,
}

/// Plays them all; the text of what went wrong first, if anything did.
pub fn run(range: Range, other: Option<&Other>) -> Result<Coverage, String> {
    let mut coverage = Coverage::default();
    for seed in (0..range.count).map(|index| range.from.wrapping_add(index)) {
        let written = generate(seed, range.calls);
        if let Some((line, fault)) = written.fault {
            return Err(format!("seed {seed}, line {line}: {}: {}\n", fault.rule, fault.detail));
        }
        if let Some(other) = other {
            compare(&written.script, &written.output, other).map_err(|text| format!("seed {seed}: {text}"))?;
        }
        coverage.add(&written.coverage);
    }
    Ok(coverage)
}

/// The events that such a run should have met and didn't.
pub fn missing(range: Range, coverage: &Coverage) -> Vec<&'static str> {
    let calls = range.count.saturating_mul(range.calls as u64);
    if calls < ENOUGH_CALLS { Vec::new() } else { coverage.missing() }
}

/// Plays one script in both programs; Err is the report of a difference.
pub fn compare(script: &[u8], mine: &[u8], other: &Other) -> Result<(), String> {
    let cannot_run = |error: io::Error| format!("can't run {}: {error}\n", other.name());
    let theirs = other.play(script).map_err(cannot_run)?;
    if theirs == mine {
        return Ok(());
    }
    let line = first_difference(script, mine, &theirs);
    let front: Vec<u8> = lines(script).take(line).flat_map(|line| [line, b"\n"].concat()).collect();
    let differs = |script: &[u8]| other.play(script).is_ok_and(|theirs| theirs != play(script));
    // Lines behind the first difference can matter only if the program fails at its end.
    let start = if differs(&front) { &front[..] } else { script };
    let short = shrink(start, differs);
    let theirs = other.play(&short).map_err(cannot_run)?;
    Err(report(line, &short, &play(&short), &theirs, &other.name()))
}

/// The script's line, from 1, whose answer is the first to differ.
fn first_difference(script: &[u8], mine: &[u8], theirs: &[u8]) -> usize {
    let same = mine.iter().zip(theirs).take_while(|(mine, theirs)| mine == theirs).count();
    let mut player = Player::default();
    let mut written = 0;
    for (line, count) in lines(script).zip(1..) {
        written += player.line(line, count).len();
        if written > same {
            return count;
        }
    }
    lines(script).count()
}

fn report(line: usize, script: &[u8], mine: &[u8], theirs: &[u8], name: &str) -> String {
    let text = |bytes: &[u8]| String::from_utf8_lossy(bytes).into_owned();
    let first = first_difference(script, mine, theirs);
    format!(
        "the answers differ, first at line {line}\n\
         --- a shorter script that shows it, at its line {first}:\n{}\
         --- second answers:\n{}\
         --- {name} answers:\n{}",
        text(script),
        text(mine),
        text(theirs)
    )
}
