//! Holds a loader to the second one, over all curated ELF files and damaged ones by a seed.

use std::collections::BTreeMap;
use std::ffi::OsString;
use std::io;
use std::path::{Path, PathBuf};
use std::process::ExitCode;
use std::sync::atomic::{AtomicUsize, Ordering};
use std::sync::Mutex;

use second::elves::{attempt, calls, curated, damaged, Call};

const WANTED: &str =
    "elves wants: SEED COUNT COMMAND.., two decimal numbers and the words that start the loader";
/// So many failures keep their files.
const KEPT: usize = 25;

/// The calls of a run, made when they are wanted.
struct Calls {
    curated: Vec<Call>,
    seed: u64,
    count: usize,
}

impl Calls {
    /// Gives the number of all calls.
    fn len(&self) -> usize {
        self.curated.len() + self.count
    }

    /// Gives a call by its number, the curated ones first.
    fn get(&self, at: usize) -> Call {
        match self.curated.get(at) {
            Some(call) => call.clone(),
            None => Call::of(&damaged(self.seed, (at - self.curated.len()) as u64)),
        }
    }
}

/// What came of the calls so far: how many failed, and how often each end was wanted.
#[derive(Default)]
struct Tally {
    failed: usize,
    spread: [BTreeMap<String, usize>; 2],
}

/// Names the end that a call wants.
fn end_of(call: &Call) -> String {
    let number = call.wanted.err.get(2..4).and_then(|digits| std::str::from_utf8(digits).ok());
    match number.and_then(|digits| u32::from_str_radix(digits, 16).ok()) {
        Some(number) => format!("refusal {number:2}"),
        None if call.wanted.status == 0 => "accepted".to_string(),
        None => format!("status {}", call.wanted.status),
    }
}

/// Runs one call and counts it; a failure prints its line.
fn run(calls: &Calls, at: usize, command: &[OsString], scratch: &Path, tally: &Mutex<Tally>) {
    let call = calls.get(at);
    let folder = scratch.join(&call.name);
    let fault = attempt(command, &call, &folder, at & 3 != 0)
        .unwrap_or_else(|error| Some(format!("it could not be run: {error}")));
    let Ok(mut tally) = tally.lock() else { return };
    *tally.spread[(at >= calls.curated.len()) as usize].entry(end_of(&call)).or_insert(0) += 1;
    if let Some(fault) = &fault {
        tally.failed += 1;
        let kept = if tally.failed <= KEPT { folder.as_path() } else { Path::new("nothing") };
        println!("FAILED: {}: {fault}; kept: {}", call.name, kept.display());
    }
    if fault.is_none() || tally.failed > KEPT {
        let _ = std::fs::remove_dir_all(folder);
    }
}

/// Runs all calls, as many at a time as there are processors.
fn run_all(calls: &Calls, command: &[OsString], scratch: &Path) -> Tally {
    let tally = Mutex::new(Tally::default());
    let next = AtomicUsize::new(0);
    let workers = std::thread::available_parallelism().map_or(1, |count| count.get());
    std::thread::scope(|scope| {
        for _ in 0..workers {
            scope.spawn(|| loop {
                let at = next.fetch_add(1, Ordering::Relaxed);
                if at >= calls.len() {
                    return;
                }
                run(calls, at, command, scratch, &tally);
            });
        }
    });
    tally.into_inner().unwrap_or_default()
}

/// Prints how often each end was wanted.
fn show(what: &str, spread: &BTreeMap<String, usize>) {
    let parts: Vec<String> = spread.iter().map(|(end, count)| format!("{end}: {count}")).collect();
    println!("{what}: {}", parts.join(", "));
}

/// Makes a word that names a file from here name it from anywhere.
fn absolute(word: OsString) -> OsString {
    let path = Path::new(&word);
    if word.to_string_lossy().contains('/') && path.exists() {
        std::path::absolute(path).map_or(word, PathBuf::into_os_string)
    } else {
        word
    }
}

/// Makes a folder that was not there before.
fn fresh_folder() -> io::Result<PathBuf> {
    let folder = std::env::temp_dir().join(format!("elves.{}", std::process::id()));
    std::fs::create_dir(&folder)?;
    std::path::absolute(folder)
}

/// Gives the seed, the count and the command that the arguments name.
fn arguments() -> Option<(u64, usize, Vec<OsString>)> {
    let mut words = std::env::args_os().skip(1);
    let seed = words.next()?.to_str()?.parse().ok()?;
    let count = words.next()?.to_str()?.parse().ok()?;
    let command: Vec<OsString> = words.map(absolute).collect();
    (!command.is_empty()).then_some((seed, count, command))
}

/// Runs everything and prints the tally.
fn main() -> io::Result<ExitCode> {
    let Some((seed, count, command)) = arguments() else {
        println!("{WANTED}");
        return Ok(ExitCode::from(2));
    };
    let scratch = fresh_folder()?;
    let mut all: Vec<Call> = curated().iter().map(Call::of).collect();
    all.extend(calls());
    let calls = Calls { curated: all, seed, count };
    let tally = run_all(&calls, &command, &scratch);
    let _ = std::fs::remove_dir(&scratch);
    show("curated", &tally.spread[0]);
    show("damaged", &tally.spread[1]);
    println!("{} passed, {} failed", calls.len() - tally.failed, tally.failed);
    Ok(if tally.failed == 0 { ExitCode::SUCCESS } else { ExitCode::FAILURE })
}
