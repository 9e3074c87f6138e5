//! A chart box in small: the ring is a mapped file, `DIR/ring`, and the shore a folder with a file for each node,
//! `DIR/shore/NODE`.
//!
//! Nothing else is kept. At each start the ring is reopened, so the box may be stopped between any two calls and
//! started again: nothing that was answered "done" is lost, and the shore ends right.

mod command;
mod host;
mod plug;
mod ring_file;
mod shore;
mod trouble;

use command::Command;
use host::Host;
use plug::Plug;
use ring_file::RingFile;
use shore::Shore;
use std::env;
use std::io::{self, BufRead};
use std::path::Path;
use std::process::ExitCode;
use trouble::Trouble;
use vibetorch::Cache;

const USAGE: &str = "\
usage: chart_box DIR make SLOTS               an empty ring of 18 to 255 slots
       chart_box DIR write NODE OFFSET TEXT   keep a write
       chart_box DIR read NODE OFFSET LENGTH  read what was written last
       chart_box DIR flush                    send one sheet to shore
       chart_box DIR sync                     send all
       chart_box DIR turn                     whose turn it is
       chart_box DIR end NODE                 where the node's cached bytes end
       chart_box DIR                          the same commands, from the lines of standard input
With '--stop-after K' in front of DIR it stops behind so many steps, as if the plug were pulled.";

fn main() -> ExitCode {
    let arguments: Vec<String> = env::args_os().skip(1).map(|word| word.to_string_lossy().into_owned()).collect();
    let words: Vec<&str> = arguments.iter().map(String::as_str).collect();
    match run(&words) {
        Ok(()) => ExitCode::SUCCESS,
        Err(Trouble::Words(text)) => {
            eprintln!("chart_box: {text}\n{USAGE}");
            ExitCode::from(2)
        }
        Err(trouble) => {
            eprintln!("chart_box: {trouble}");
            ExitCode::from(1)
        }
    }
}

fn run(words: &[&str]) -> Result<(), Trouble> {
    let (plug, words) = match words {
        ["--stop-after", steps, rest @ ..] => (Plug::pulled_after(command::number(steps)?), rest),
        _ => (Plug::firm(), words),
    };
    let (folder, command) = match words {
        [] => return Err(Trouble::Words("no folder".into())),
        [folder, "make", slots] => return make(Path::new(folder), command::number(slots)?),
        [folder] => (folder, None),
        [folder, rest @ ..] => (folder, Some(Command::read(rest)?)),
    };
    let (path, shore) = (Path::new(folder).join("ring"), Path::new(folder).join("shore"));
    let mut ring = RingFile::open(&path)?;
    let cache = Cache::reopen(ring.bytes()).map_err(|refused| Trouble::file(&path, refused))?;
    let mut host = Host::new(cache, &path, Shore::new(shore), plug);
    match command {
        Some(command) => {
            println!("{}", host.run(&command)?);
            Ok(())
        }
        None => run_lines(&mut host),
    }
}

fn make(folder: &Path, slots: usize) -> Result<(), Trouble> {
    RingFile::make(&folder.join("ring"), slots)?;
    println!("an empty ring of {slots} slots");
    Ok(())
}

/// Answers each line by one line. A line that can't be done doesn't end the box.
fn run_lines(host: &mut Host) -> Result<(), Trouble> {
    for line in io::stdin().lock().split(b'\n') {
        let line = line.map_err(|error| Trouble::Words(format!("standard input: {error}")))?;
        let line = String::from_utf8_lossy(&line);
        // The text of a write may hold spaces; no other command has more than three words behind its name.
        let words: Vec<&str> = line.splitn(4, ' ').collect();
        match Command::read(&words).and_then(|command| host.run(&command)) {
            Ok(answer) => println!("{answer}"),
            Err(trouble) => println!("no: {trouble}"),
        }
    }
    Ok(())
}
