//! The command line.

use second::compare::{Other, Range, compare, missing, run};
use second::generate::generate;
use second::player::play;
use std::ffi::OsString;
use std::io::{self, Read, Write};
use std::process::ExitCode;

const USAGE: &str = "\
usage: second play < SCRIPT
       second history SEED CALLS
       second check FROM COUNT CALLS
       second compare FROM COUNT CALLS -- PROGRAM [ARGUMENT..]
       second compare-file SCRIPT -- PROGRAM [ARGUMENT..]
";

fn main() -> ExitCode {
    let arguments: Vec<OsString> = std::env::args_os().skip(1).collect();
    match dispatch(&arguments) {
        Ok(()) => ExitCode::SUCCESS,
        Err(Trouble::Found(text)) => {
            print!("{text}");
            ExitCode::from(1)
        }
        Err(Trouble::Usage(text)) => {
            eprint!("second: {text}\n{USAGE}");
            ExitCode::from(2)
        }
        Err(Trouble::Input(text)) => {
            eprintln!("second: {text}");
            ExitCode::from(2)
        }
    }
}

enum Trouble {
    /// A rule that didn't hold, a difference, or something never met.
    Found(String),
    Usage(String),
    Input(String),
}

impl From<io::Error> for Trouble {
    fn from(error: io::Error) -> Trouble {
        Trouble::Input(error.to_string())
    }
}

fn dispatch(arguments: &[OsString]) -> Result<(), Trouble> {
    let split = arguments.iter().position(|argument| argument == "--");
    let (front, behind) = arguments.split_at(split.unwrap_or(arguments.len()));
    let words: Vec<&str> = front.iter().map(|word| word.to_str().unwrap_or("?")).collect();
    match (words.as_slice(), split) {
        (["play"], None) => play_input(),
        (["history", seed, calls], None) => print_history(number(seed)?, number(calls)? as usize),
        (["check", from, count, calls], None) => check(range(from, count, calls)?),
        (["compare", from, count, calls], Some(_)) => compare_all(range(from, count, calls)?, &other(behind)?),
        (["compare-file", _], Some(_)) => compare_file(&front[1], &other(behind)?),
        ([], _) => Err(Trouble::Usage("no command".into())),
        (["play" | "history" | "check" | "compare" | "compare-file", ..], _) => {
            Err(Trouble::Usage(format!("wrong arguments for '{}'", words[0])))
        }
        ([name, ..], _) => Err(Trouble::Usage(format!("no such command '{name}'"))),
    }
}

fn number(word: &str) -> Result<u64, Trouble> {
    word.parse().map_err(|_| Trouble::Usage(format!("'{word}' is no number")))
}

fn range(from: &str, count: &str, calls: &str) -> Result<Range, Trouble> {
    Ok(Range { from: number(from)?, count: number(count)?, calls: number(calls)? as usize })
}

/// The program named behind `--`.
fn other(behind: &[OsString]) -> Result<Other, Trouble> {
    match behind {
        [_, program, arguments @ ..] => Ok(Other { program: program.clone(), arguments: arguments.to_vec() }),
        _ => Err(Trouble::Usage("no program behind '--'".into())),
    }
}

fn play_input() -> Result<(), Trouble> {
    let mut script = Vec::new();
    io::stdin().read_to_end(&mut script)?;
    Ok(io::stdout().write_all(&play(&script))?)
}

fn print_history(seed: u64, calls: usize) -> Result<(), Trouble> {
    Ok(io::stdout().write_all(&generate(seed, calls).script)?)
}

fn check(range: Range) -> Result<(), Trouble> {
    let text = finished(range, None)?;
    println!("{text}: every check held");
    Ok(())
}

fn compare_all(range: Range, other: &Other) -> Result<(), Trouble> {
    let text = finished(range, Some(other))?;
    println!("compared {text}: no difference");
    Ok(())
}

/// Runs the histories and prints the coverage table; gives the words for what was run.
fn finished(range: Range, other: Option<&Other>) -> Result<String, Trouble> {
    let coverage = run(range, other).map_err(Trouble::Found)?;
    print!("{coverage}");
    let missing = missing(range, &coverage);
    if !missing.is_empty() {
        return Err(Trouble::Found(format!("never met: {}\n", missing.join("; "))));
    }
    let last = range.from.wrapping_add(range.count).wrapping_sub(1);
    Ok(format!("{} histories of {} calls, seeds {} to {last}", range.count, range.calls, range.from))
}

fn compare_file(name: &OsString, other: &Other) -> Result<(), Trouble> {
    let cannot_read = |error| Trouble::Input(format!("can't read {}: {error}", name.to_string_lossy()));
    let script = std::fs::read(name).map_err(cannot_read)?;
    compare(&script, &play(&script), other).map_err(Trouble::Found)?;
    println!("{}: no difference", name.to_string_lossy());
    Ok(())
}
