//! Calls as they are made: words, files by name and what is wanted; wrong words and files too large among them.

use std::ffi::OsString;
use std::os::unix::ffi::OsStringExt;

use super::make::*;
use super::{alone, kernel, program, user, value, Case, BUDGET};
use crate::loader::{outcome, Outcome, Task, FILES_MOST};

/// One call of a loader in a folder of its own.
#[derive(Clone, Debug)]
pub struct Call {
    pub name: String,
    pub words: Vec<OsString>,
    /// The files of the folder, and folders in it for those without bytes.
    pub files: Vec<(String, Option<Vec<u8>>)>,
    pub settings: Vec<u8>,
    pub wanted: Outcome,
}

impl Call {
    /// Gives the call of a case, and what the second loader answers.
    pub fn of(case: &Case) -> Call {
        let names: Vec<String> = (0..case.files.len()).map(|i| format!("{i}.elf")).collect();
        let word = match case.task {
            Task::User => "user",
            Task::Kernel => "kernel",
            Task::Symbol(_) => "symbol",
        };
        let mut words: Vec<OsString> = vec![word.into()];
        words.extend(names.iter().map(OsString::from));
        if let Task::Symbol(name) = &case.task {
            words.push(OsString::from_vec(name.clone()));
        }
        Call {
            name: case.name.clone(),
            words,
            files: names.into_iter().zip(case.files.iter().cloned().map(Some)).collect(),
            settings: case.settings.clone(),
            wanted: outcome(&case.task, &case.files, &case.settings),
        }
    }

    /// Gives a call of words beside a kernel, a program and a folder, that ends with a status and no answer.
    fn unanswered(name: &str, words: &[&str], status: u8) -> Call {
        let files = [
            ("kernel.elf", Some(kernel().bytes())),
            ("program.elf", Some(program().bytes())),
            ("folder", None),
        ];
        Call {
            name: name.to_string(),
            words: words.iter().map(OsString::from).collect(),
            files: files.map(|(name, bytes)| (name.to_string(), bytes)).to_vec(),
            settings: BUDGET.to_vec(),
            wanted: Outcome { status, out: Vec::new(), err: Vec::new() },
        }
    }
}

/// Words that are wrong.
const WRONG: [(&str, &[&str]); 22] = [
    ("none", &[]),
    ("empty", &[""]),
    ("user", &["user"]),
    ("user-kernel", &["user", "kernel.elf"]),
    ("kernel", &["kernel"]),
    ("kernel-two", &["kernel", "kernel.elf", "program.elf"]),
    ("symbol", &["symbol"]),
    ("symbol-program", &["symbol", "program.elf"]),
    ("symbol-three", &["symbol", "program.elf", "a", "b"]),
    ("other", &["image", "kernel.elf"]),
    ("capital", &["User", "kernel.elf", "program.elf"]),
    ("capitals", &["KERNEL", "kernel.elf"]),
    ("shorter", &["use", "kernel.elf", "program.elf"]),
    ("longer", &["users", "kernel.elf", "program.elf"]),
    ("longer-symbol", &["symbols", "program.elf", "a"]),
    ("space", &["user ", "kernel.elf", "program.elf"]),
    ("space-before", &[" kernel", "kernel.elf"]),
    ("help", &["--help"]),
    ("files", &["kernel.elf", "program.elf"]),
    ("other-of-none", &["image", "none.elf"]),
    ("eight", &["user", "0", "1", "2", "3", "4", "5", "6", "7", "8"]),
    ("more", &["user", "0", "1", "2", "3", "4", "5", "6", "7", "8", "9", "10", "11"]),
];

/// Files that cannot be read.
const UNREAD: [(&str, &[&str]); 10] = [
    ("kernel", &["user", "none.elf", "program.elf"]),
    ("program", &["user", "kernel.elf", "none.elf"]),
    ("second", &["user", "kernel.elf", "program.elf", "none.elf"]),
    ("folder", &["user", "kernel.elf", "folder"]),
    ("folder-kernel", &["user", "folder", "program.elf"]),
    ("alone", &["kernel", "none.elf"]),
    ("alone-folder", &["kernel", "folder"]),
    ("alone-empty", &["kernel", ""]),
    ("symbol", &["symbol", "none.elf", "main"]),
    ("symbol-folder", &["symbol", "folder", "main"]),
];

/// Gives the calls that are no cases, and those of large files.
pub fn calls() -> Vec<Call> {
    let mut calls = Vec::new();
    for (name, words) in WRONG {
        calls.push(Call::unanswered(&format!("words-{name}"), words, 2));
    }
    for (name, words) in UNREAD {
        calls.push(Call::unanswered(&format!("unread-{name}"), words, 1));
    }
    calls.extend(odd_names());
    calls.extend(large().iter().map(Call::of));
    calls
}

/// Files whose names mean something to a shell or to other programs, and one that is no file on a disk.
fn odd_names() -> Vec<Call> {
    let named = |(i, name): (usize, &str)| {
        let call = Call::of(&alone(format!("odd-name-{i}"), kernel().bytes()));
        let files = vec![(name.to_string(), Some(kernel().bytes()))];
        Call { words: vec!["kernel".into(), name.into()], files, ..call }
    };
    let names =
        ["-", "--", "-n", "--help", "two words", "*", "$(x)", "a\nb", "é", "kernel", "user"];
    let mut calls: Vec<Call> = names.into_iter().enumerate().map(named).collect();
    let empty = Call::of(&alone("no-bytes-at-all", Vec::new()));
    calls.push(Call { words: vec!["kernel".into(), "/dev/null".into()], ..empty });
    calls
}

/// Gives a file with bytes after its own, so that it has a length.
fn stretched(elf: &Elf, length: usize) -> Vec<u8> {
    let mut file = elf.bytes();
    file.resize(length, 0xa5);
    file
}

/// Files that fill their room, and those with a byte more.
fn large() -> Vec<Case> {
    let mut cases = Vec::new();
    let named = Elf { symbols: vec![symbol(b"main", 7)], ..program() };
    for more in 0..2 {
        let most = FILES_MOST + more;
        let below = kernel().bytes();
        let rest = stretched(&program(), most - below.len());
        cases.push(user(format!("files-and-{more}"), vec![below, rest]));
        cases.push(alone(format!("alone-and-{more}"), stretched(&kernel(), most)));
        cases.push(value(format!("symbol-and-{more}"), stretched(&named, most), b"main"));
        cases.push(alone(format!("zeros-and-{more}"), vec![0; most]));
        let mut seven = vec![stretched(&program(), most / 8); 8];
        seven[0] = stretched(&kernel(), most - 7 * (most / 8));
        cases.push(user(format!("seven-and-{more}"), seven));
        // A segment from the very end of the largest file.
        let mut far = stretched(&kernel(), most);
        put32(&mut far, header_at(0) + OFFSET, most as u32 - 0x190);
        cases.push(alone(format!("far-and-{more}"), far));
    }
    let mut symbols = value("symbol-with-long-settings", named.bytes(), b"main");
    symbols.settings = vec![b'0'; 65_537];
    cases.push(symbols);
    cases
}
