//! Runs a loader on a call, in a folder of its own, and says what is wrong with its answer.

use std::ffi::OsString;
use std::fs::{self, File};
use std::io::{self, Read, Write};
use std::os::unix::process::ExitStatusExt;
use std::path::Path;
use std::process::{Child, ChildStdin, Command, ExitStatus, Stdio};
use std::time::{Duration, Instant};

use super::Call;

/// The longest that a loader may take.
const LONGEST: Duration = Duration::from_secs(1);
/// How long to wait before the child is looked at again.
const PAUSE: Duration = Duration::from_micros(200);
/// The longest line of a loader that cannot read its files or has wrong words, and what begins it.
const LINE_MOST: usize = 300;
const LINE_START: &[u8] = b"cardimage: ";

/// What a loader wrote and how it ended, or that it did not.
struct Given {
    status: Option<ExitStatus>,
    out: Vec<u8>,
    err: Vec<u8>,
}

/// The name of the file of settings, where they do not come through a pipe.
const SETTINGS: &str = "settings";

/// Writes what a call needs into a new folder.
fn prepare(call: &Call, folder: &Path, piped: bool) -> io::Result<()> {
    fs::create_dir(folder)?;
    for (name, bytes) in &call.files {
        match bytes {
            Some(bytes) => fs::write(folder.join(name), bytes)?,
            None => fs::create_dir(folder.join(name))?,
        }
    }
    if piped {
        Ok(())
    } else {
        fs::write(folder.join(SETTINGS), &call.settings)
    }
}

/// Starts the loader; its settings come from a file, or piece by piece through a pipe.
fn start(command: &[OsString], call: &Call, folder: &Path, piped: bool) -> io::Result<Child> {
    let stdin = if piped { Stdio::piped() } else { File::open(folder.join(SETTINGS))?.into() };
    Command::new(&command[0])
        .args(&command[1..])
        .args(&call.words)
        .current_dir(folder)
        .stdin(stdin)
        .stdout(Stdio::piped())
        .stderr(Stdio::piped())
        .spawn()
}

/// Reads a stream to its end, as far as it goes.
fn drain(stream: Option<impl Read>) -> Vec<u8> {
    let mut bytes = Vec::new();
    if let Some(mut stream) = stream {
        let _ = stream.read_to_end(&mut bytes);
    }
    bytes
}

/// Writes settings into a pipe in three pieces; a loader need not read them.
fn feed(mut pipe: ChildStdin, settings: &[u8]) {
    for piece in settings.chunks((settings.len() / 3).max(1)) {
        if pipe.write_all(piece).is_err() {
            return;
        }
    }
}

/// Waits for the end of a child, or ends it when its time is over.
fn end_of(child: &mut Child) -> io::Result<Option<ExitStatus>> {
    let begun = Instant::now();
    while begun.elapsed() < LONGEST {
        if let Some(status) = child.try_wait()? {
            return Ok(Some(status));
        }
        std::thread::sleep(PAUSE);
    }
    child.kill()?;
    child.wait()?;
    Ok(None)
}

/// Tells whether a message is one line that can be printed and names the program.
fn is_message(err: &[u8]) -> bool {
    err.len() <= LINE_MOST
        && err.starts_with(LINE_START)
        && err.split_last().is_some_and(|(last, line)| {
            *last == b'\n' && line.iter().all(|byte| matches!(byte, b' '..=b'~'))
        })
}

/// Tells whether the folder it ran in has what it had, and nothing more.
fn is_unchanged(call: &Call, folder: &Path, piped: bool) -> io::Result<bool> {
    let settings = (SETTINGS.to_string(), Some(call.settings.clone()));
    let mut count = 0;
    for (name, bytes) in call.files.iter().chain((!piped).then_some(&settings)) {
        count += 1;
        if let Some(bytes) = bytes {
            if fs::read(folder.join(name))? != *bytes {
                return Ok(false);
            }
        }
    }
    Ok(fs::read_dir(folder)?.count() == count)
}

/// Gives the start of a message, fit to be printed.
fn shown(err: &[u8]) -> String {
    String::from_utf8_lossy(err).trim_end().chars().take(80).collect()
}

/// Says what is wrong with what a loader gave, or nothing.
fn fault(call: &Call, given: &Given) -> Option<String> {
    let Some(status) = given.status else {
        return Some("it did not end within a second".to_string());
    };
    if let Some(signal) = status.signal() {
        return Some(format!("it was ended by signal {signal}"));
    }
    let wanted = &call.wanted;
    let (said, told) = (shown(&given.err), shown(&wanted.err));
    let unanswered = matches!(wanted.status, 1 | 2);
    let err_fits = if unanswered { is_message(&given.err) } else { given.err == wanted.err };
    if status.code() != Some(wanted.status as i32) {
        let code = status.code().unwrap_or(-1);
        Some(format!("status {code} '{said}', not {} '{told}'", wanted.status))
    } else if given.out != wanted.out {
        Some("another standard output".to_string())
    } else if !err_fits {
        Some(format!("it said '{said}', not '{told}'"))
    } else {
        None
    }
}

/// Writes what was given and what was wanted beside the files of a call.
fn keep(call: &Call, given: &Given, folder: &Path) -> io::Result<()> {
    fs::write(folder.join(SETTINGS), &call.settings)?;
    fs::write(folder.join("words"), format!("{:?}\n", call.words))?;
    fs::write(folder.join("stdout"), &given.out)?;
    fs::write(folder.join("stderr"), &given.err)?;
    fs::write(folder.join("wanted.stdout"), &call.wanted.out)?;
    fs::write(folder.join("wanted.stderr"), &call.wanted.err)
}

/// Runs a loader by its words on a call, in a folder to be made, and says what is wrong, or nothing.
pub fn attempt(
    command: &[OsString],
    call: &Call,
    folder: &Path,
    piped: bool,
) -> io::Result<Option<String>> {
    prepare(call, folder, piped)?;
    let mut child = start(command, call, folder, piped)?;
    let (pipe, out, err) = (child.stdin.take(), child.stdout.take(), child.stderr.take());
    let given = std::thread::scope(|scope| -> io::Result<Given> {
        scope.spawn(|| pipe.map(|pipe| feed(pipe, &call.settings)));
        let out = scope.spawn(|| drain(out));
        let err = scope.spawn(|| drain(err));
        let status = end_of(&mut child)?;
        let (out, err) = (out.join().unwrap_or_default(), err.join().unwrap_or_default());
        Ok(Given { status, out, err })
    })?;
    let mut fault = fault(call, &given);
    if fault.is_none() && !is_unchanged(call, folder, piped)? {
        fault = Some("the folder it ran in has changed".to_string());
    }
    if fault.is_some() {
        keep(call, &given, folder)?;
    }
    Ok(fault)
}
