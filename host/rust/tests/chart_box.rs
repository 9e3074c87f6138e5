//! The example host, in processes of its own: stopped between any two steps and started again, it loses nothing and
//! the shore ends right; and ring files that are none.

#[path = "../examples/chart_box/ring_file.rs"]
#[allow(dead_code)]
mod ring_file;
#[path = "../examples/chart_box/trouble.rs"]
#[allow(dead_code)]
mod trouble;

use std::collections::BTreeMap;
use std::fs;
use std::io::Write;
use std::path::{Path, PathBuf};
use std::process::{Command, Output, Stdio};
use vibetorch::ring_bytes;

/// The exit status of a box whose plug was pulled.
const PULLED: i32 = 9;

/// Built by `cargo test` beside the tests, but not where it is asked for some tests by name.
fn program() -> PathBuf {
    let test = std::env::current_exe().unwrap();
    let program = test.parent().and_then(Path::parent).unwrap().join("examples/chart_box");
    let changed = |path: &Path| path.metadata().and_then(|file| file.modified()).ok();
    let sources = fs::read_dir(concat!(env!("CARGO_MANIFEST_DIR"), "/examples/chart_box")).unwrap();
    let newest = sources.filter_map(|file| changed(&file.unwrap().path())).max();
    assert!(changed(&program) >= newest, "{} is missing or old: run the whole 'cargo test'", program.display());
    program
}

/// A folder that is removed at the end.
struct Folder(PathBuf);

impl Folder {
    fn new(name: &str) -> Folder {
        let path = std::env::temp_dir().join(format!("vibetorch-{}-{name}", std::process::id()));
        let _ = fs::remove_dir_all(&path);
        fs::create_dir_all(&path).unwrap();
        Folder(path)
    }

    /// A folder with an empty ring of 18 slots.
    fn with_ring(name: &str) -> Folder {
        let folder = Folder::new(name);
        assert!(folder.run(&["make", "18"]).status.success());
        folder
    }

    fn ring(&self) -> PathBuf {
        self.0.join("ring")
    }

    fn run(&self, words: &[&str]) -> Output {
        Command::new(program()).arg(&self.0).args(words).output().unwrap()
    }

    /// Plays lines until they end or the plug is pulled; gives the answers, and whether it was pulled.
    fn play(&self, stop_after: Option<u64>, lines: &[String]) -> (Vec<String>, bool) {
        let mut command = Command::new(program());
        if let Some(steps) = stop_after {
            command.args(["--stop-after", &steps.to_string()]);
        }
        let mut child = command.arg(&self.0).stdin(Stdio::piped()).stdout(Stdio::piped()).spawn().unwrap();
        // A box that stops reads no further, so this may fail.
        let _ = child.stdin.take().unwrap().write_all(lines.join("\n").as_bytes());
        let output = child.wait_with_output().unwrap();
        let pulled = output.status.code() == Some(PULLED);
        assert!(pulled || output.status.success(), "{:?}", output.status);
        let answers = String::from_utf8(output.stdout).unwrap();
        (answers.lines().map(str::to_string).collect(), pulled)
    }

    fn shore(&self) -> Files {
        let Ok(listed) = fs::read_dir(self.0.join("shore")) else { return Files::new() };
        let files = listed.map(|file| file.unwrap().path());
        files
            .map(|path| (path.file_name().unwrap().to_str().unwrap().parse().unwrap(), fs::read(path).unwrap()))
            .collect()
    }
}

impl Drop for Folder {
    fn drop(&mut self) {
        let _ = fs::remove_dir_all(&self.0);
    }
}

type Files = BTreeMap<u32, Vec<u8>>;

/// Writes that overlap, leave gaps and fill the ring, and what happens between them.
fn lines() -> Vec<String> {
    let long = "ABCDEFGHIJ".repeat(60);
    let largest = "largest.".repeat(512);
    let lines = [
        "write 7 10 AAAA".into(),
        "write 7 12 BB".into(),
        "write 9 0 some words".into(),
        "read 7 0 100".into(),
        "write 7 20 D".into(),
        "flush".into(),
        "write 7 11 old and new".into(),
        format!("write 9 5 {long}"),
        "read 9 0 30".into(),
        "sync".into(),
        "write 9 3000 far".into(),
        "write 9 2999 nearer".into(),
        format!("write 3 1 {largest}"),
        "write 7 0 last".into(),
        "read 9 2990 40".into(),
        "flush".into(),
        "write 9 3001 z".into(),
        "turn".into(),
    ];
    lines.to_vec()
}

/// The files that the writes among some lines make.
fn written(lines: &[String]) -> Files {
    let mut files = Files::new();
    for line in lines {
        let ["write", node, offset, text] = line.splitn(4, ' ').collect::<Vec<_>>()[..] else { continue };
        let offset: usize = offset.parse().unwrap();
        let file = files.entry(node.parse().unwrap()).or_default();
        file.resize(file.len().max(offset + text.len()), 0);
        file[offset..offset + text.len()].copy_from_slice(text.as_bytes());
    }
    files
}

/// What a tablet reads of the nodes that the lines write to, each as a whole.
fn seen(folder: &Folder) -> Files {
    let nodes = [3, 7, 9];
    let reads: Vec<String> = nodes.iter().map(|node| format!("read {node} 0 5000")).collect();
    let (answers, _) = folder.play(None, &reads);
    let bytes = |answer: &String| unescaped(answer.split_once(" bytes: ").unwrap().1);
    let files = nodes.into_iter().zip(answers.iter().map(bytes));
    files.filter(|(_, bytes)| !bytes.is_empty()).collect()
}

/// The text here is plain, so that zero is the only byte that is escaped.
fn unescaped(text: &str) -> Vec<u8> {
    text.replace("\\x00", "\0").into_bytes()
}

/// Every write that was answered is seen; of the one that the stop cut off, all or nothing.
fn nothing_is_lost(folder: &Folder, lines: &[String], answered: usize, stop: u64) {
    let seen = seen(folder);
    let cut_off = (answered + 1).min(lines.len());
    let whole = seen == written(&lines[..answered]) || seen == written(&lines[..cut_off]);
    assert!(whole, "stopped after {stop} steps, {answered} answers");
}

#[test]
fn stopped_between_any_two_steps() {
    let lines = lines();
    let mut stops = 0;
    for stop in 0.. {
        let folder = Folder::with_ring(&format!("stop-{stop}"));
        let (answers, pulled) = folder.play(Some(stop), &lines);
        nothing_is_lost(&folder, &lines, answers.len(), stop);
        // The tablet sends again what it got no answer to.
        let rest = [&lines[answers.len()..], &["sync".to_string()]].concat();
        let (again, _) = folder.play(None, &rest);
        assert!(again.iter().all(|answer| !answer.starts_with("no: ")), "{again:?}");
        assert!(folder.shore() == written(&lines), "stopped after {stop} steps: the shore is wrong");
        if !pulled {
            break;
        }
        stops += 1;
    }
    assert!(stops > 80, "only {stops} steps");
}

#[test]
fn stopped_again_and_again() {
    let lines = lines();
    for steps in 2..12 {
        let folder = Folder::with_ring(&format!("again-{steps}"));
        let mut answered = 0;
        // A largest write to a full ring, or a sync, takes more steps than it lives, and would never get done.
        for life in 0.. {
            let (answers, pulled) = folder.play(Some(steps + life / 4), &lines[answered..]);
            answered += answers.len();
            nothing_is_lost(&folder, &lines, answered, steps);
            if !pulled {
                break;
            }
        }
        folder.play(None, &["sync".to_string()]);
        assert!(folder.shore() == written(&lines), "lives of {steps} steps: the shore is wrong");
    }
}

/// The box must say this of its ring, and write nothing.
fn is_refused(folder: &Folder, said: &str) {
    let before = fs::read(folder.ring()).ok();
    for words in [&["write", "7", "0", "x"][..], &["sync"], &["turn"], &[]] {
        let output = folder.run(words);
        assert!(!output.status.success() && output.stdout.is_empty(), "{said}: {words:?}");
        let error = String::from_utf8(output.stderr).unwrap();
        assert!(error.contains(&format!("{}: ", folder.ring().display())), "{error}");
        assert!(error.contains(said), "{error}");
    }
    assert_eq!(fs::read(folder.ring()).ok(), before);
    assert_eq!(folder.shore(), Files::new());
    let extra: Vec<_> = fs::read_dir(&folder.0).unwrap().map(|file| file.unwrap().path()).collect();
    assert!(extra.iter().all(|path| *path == folder.ring()), "{extra:?}");
}

#[test]
fn files_of_the_wrong_size() {
    let folder = Folder::new("size");
    for length in [0, 1, 15, 16, 100, ring_bytes(17), ring_bytes(18) - 1, ring_bytes(18) + 1, ring_bytes(256)] {
        fs::write(folder.ring(), vec![1; length]).unwrap();
        is_refused(&folder, &format!("{length} bytes: a ring has "));
    }
}

#[test]
fn files_that_cannot_be_opened() {
    let folder = Folder::new("open");
    is_refused(&folder, "No such file");
    fs::create_dir(folder.ring()).unwrap();
    is_refused(&folder, "Is a directory");
}

#[test]
fn a_file_that_is_no_ring() {
    let folder = Folder::new("noring");
    fs::write(folder.ring(), vec![0; ring_bytes(18)]).unwrap();
    is_refused(&folder, "(refusal 8)");
}

#[test]
fn a_file_that_cannot_be_mapped() {
    let folder = Folder::with_ring("map");
    // What is open for reading alone can't be mapped for writing.
    let file = fs::File::open(folder.ring()).unwrap();
    assert!(ring_file::RingFile::map(file, ring_bytes(18)).is_err());
}

#[test]
fn a_ring_in_use() {
    let folder = Folder::with_ring("use");
    let held = ring_file::RingFile::open(&folder.ring()).unwrap();
    is_refused(&folder, "in use by another box");
    drop(held);
    assert!(folder.run(&["turn"]).status.success());
}

#[test]
fn an_old_ring_is_not_made_new() {
    let folder = Folder::with_ring("old");
    folder.run(&["write", "7", "0", "x"]);
    let before = fs::read(folder.ring()).unwrap();
    let output = folder.run(&["make", "18"]);
    assert!(String::from_utf8(output.stderr).unwrap().contains("is there already"));
    assert_eq!(fs::read(folder.ring()).unwrap(), before);
}
