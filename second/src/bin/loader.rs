//! The second loader as a program, with the words, statuses and outputs of `cardimage` (L1 to L4).

use std::ffi::OsString;
use std::fs::File;
use std::io::{Read, Write};
use std::os::unix::ffi::OsStringExt;
use std::process::ExitCode;

use second::loader::{outcome, Task, FILES_MOST, PROGRAMS_MOST, SETTINGS_MOST};

const WANTED: &str = "write: user KERNEL PROGRAM.., kernel PROGRAM, or symbol PROGRAM NAME";

/// Splits the words into the task and the names of its files.
fn task(mut words: Vec<OsString>) -> Option<(Task, Vec<OsString>)> {
    if words.is_empty() {
        return None;
    }
    let word = words.remove(0);
    match (word.to_str()?, words.len()) {
        ("user", 2..) if words.len() <= 1 + PROGRAMS_MOST => Some((Task::User, words)),
        ("kernel", 1) => Some((Task::Kernel, words)),
        ("symbol", 2) => Some((Task::Symbol(words.pop()?.into_vec()), words)),
        _ => None,
    }
}

/// Reads a source to its end, or one byte more than its room.
fn take(source: impl Read, room: usize) -> std::io::Result<Vec<u8>> {
    let mut bytes = Vec::new();
    source.take(room as u64 + 1).read_to_end(&mut bytes)?;
    Ok(bytes)
}

/// Reads what a task needs, answers it and gives the status.
fn run(task: &Task, names: &[OsString]) -> std::io::Result<u8> {
    let open = |name| File::open(name).and_then(|file| take(file, FILES_MOST));
    let files = names.iter().map(open).collect::<std::io::Result<Vec<_>>>()?;
    let settings = match task {
        Task::Symbol(_) => Vec::new(),
        _ => take(std::io::stdin().lock(), SETTINGS_MOST)?,
    };
    let outcome = outcome(task, &files, &settings);
    if outcome.status == 1 {
        return Err(std::io::Error::other("there are more bytes than the room"));
    }
    std::io::stdout().write_all(&outcome.out)?;
    std::io::stdout().flush()?;
    std::io::stderr().write_all(&outcome.err)?;
    Ok(outcome.status)
}

/// Says in one line why nothing was done.
fn complain(status: u8, why: &str) -> ExitCode {
    eprintln!("cardimage: {why}");
    ExitCode::from(status)
}

/// Takes the words after the program's own name.
fn main() -> ExitCode {
    match task(std::env::args_os().skip(1).collect()) {
        None => complain(2, WANTED),
        Some((task, names)) => match run(&task, &names) {
            Ok(status) => ExitCode::from(status),
            Err(why) => complain(1, &why.to_string()),
        },
    }
}
