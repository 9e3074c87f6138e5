//! Generator, shrinker and comparison.

use second::compare::{Other, Range, compare, missing, run};
use second::generate::generate;
use second::player::play;
use second::script::{Command, Line, lines, read_line};
use second::shrink::shrink;

#[test]
fn a_history_replays_to_the_same_answers() {
    for seed in 1..=12 {
        let written = generate(seed, 150);
        assert_eq!(written.fault, None, "seed {seed}");
        assert_eq!(play(&written.script), written.output, "seed {seed}");
        assert_eq!(generate(seed, 150).script, written.script, "seed {seed}");
    }
}

#[test]
fn a_history_has_as_many_calls_as_asked_for() {
    use Command::*;
    let is_call = |line: &&[u8]| match read_line(line) {
        Line::Command(command) => !matches!(
            command,
            Look(_)
                | Poke { .. }
                | SetNext(_)
                | SetFlush(_)
                | SetCount(_)
                | SetNumber { .. }
                | SetPhase { .. }
                | SetPin { .. }
        ),
        _ => false,
    };
    for seed in 20..30 {
        assert_eq!(lines(&generate(seed, 200).script).filter(is_call).count(), 200, "seed {seed}");
    }
}

#[test]
fn a_run_meets_everything() {
    let range = Range { from: 1, count: 60, calls: 500 };
    let coverage = run(range, None).unwrap();
    assert_eq!(missing(range, &coverage), [""; 0]);
}

#[test]
fn shrinking_keeps_what_is_needed() {
    let script: String = (0..200).map(|line| format!("{line}\n")).collect();
    let has = |script: &[u8], line: &[u8]| lines(script).any(|other| other == line);
    let short = shrink(script.as_bytes(), |script| has(script, b"17") && has(script, b"140"));
    assert_eq!(short, b"17\n140\n");
}

/// A program that answers `ok` to nothing at all differs at the first line.
#[test]
fn comparing_finds_a_difference() {
    let other = Other { program: "cat".into(), arguments: Vec::new() };
    let script = b"# skipped\nmake 4624\nticket\n";
    let text = compare(script, &play(script), &other).unwrap_err();
    assert!(text.contains("first at line 2"), "{text}");
    assert_eq!(compare(b"", &play(b""), &other), Ok(()));
}
