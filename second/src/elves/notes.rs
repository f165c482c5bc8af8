//! Headers that are only notes, and those that are so but for a byte.

use super::make::*;
use super::{alone, beneath, kernel, over, program, user, Case};

/// Where the notes stand.
const AT: u32 = 0x0030_0100;

/// Gives a program with a loaded header of 48 bytes at AT and notes, these before or after it.
fn noted(notes: &[(u32, u32, u32)], after: bool) -> Elf {
    let mut elf = program();
    let mut headers: Vec<Header> = notes.iter().map(|n| note(n.0, n.1, n.2)).collect();
    let part = load(AT, marks(9, 48), 48, READ);
    headers.insert(if after { 0 } else { headers.len() }, part);
    elf.headers.splice(0..0, headers);
    elf
}

/// The notes of one case, each a type, an address and a size.
type Notes = &'static [(u32, u32, u32)];

/// Where notes can stand beside the 48 bytes.
const PLACES: [(&str, Notes); 24] = [
    ("none", &[]),
    ("exact", &[(NOTE, AT, 48)]),
    ("one-less", &[(NOTE, AT, 47)]),
    ("one-more", &[(NOTE, AT, 49)]),
    ("one-later", &[(NOTE, AT + 1, 47)]),
    ("one-earlier", &[(NOTE, AT - 1, 49)]),
    ("one-earlier-and-short", &[(NOTE, AT - 1, 48)]),
    ("two", &[(ABIFLAGS, AT, 24), (REGINFO, AT + 24, 24)]),
    ("two-turned", &[(REGINFO, AT + 24, 24), (ABIFLAGS, AT, 24)]),
    ("two-with-a-gap", &[(ABIFLAGS, AT, 24), (REGINFO, AT + 25, 24)]),
    ("two-that-overlap", &[(ABIFLAGS, AT, 30), (REGINFO, AT + 20, 28)]),
    ("three", &[(OPTIONS, AT, 8), (NOTE, AT + 8, 8), (ABIFLAGS, AT + 16, 32)]),
    ("a-gap-filled-later", &[(NOTE, AT, 8), (NOTE, AT + 16, 32), (NOTE, AT + 8, 8)]),
    ("filled-and-again", &[(NOTE, AT, 8), (NOTE, AT + 8, 8), (NOTE, AT + 16, 32)]),
    ("a-shorter-after", &[(NOTE, AT, 48), (NOTE, AT, 8)]),
    ("another-type", &[(RTPROC, AT, 48)]),
    ("type-5", &[(5, AT, 48)]),
    ("type-0", &[(0, AT, 48)]),
    ("type-6", &[(6, AT, 48)]),
    ("type-70000004", &[(0x7000_0004, AT, 48)]),
    ("from-0", &[(NOTE, 0, AT + 48)]),
    ("from-0-and-short", &[(NOTE, 0, AT + 47)]),
    ("wrapping", &[(NOTE, AT, 0xffff_ffff)]),
    ("far", &[(NOTE, 0xffff_ffff, 0xffff_ffff)]),
];

/// Gives the cases.
pub fn cases() -> Vec<Case> {
    let mut cases = Vec::new();
    for (name, notes) in PLACES {
        cases.push(over(format!("notes-{name}"), noted(notes, false).bytes()));
        cases.push(over(format!("notes-after-{name}"), noted(notes, true).bytes()));
    }
    cases.extend(empty());
    cases.extend(careless());
    cases.extend(kernels());
    cases
}

/// Loaded headers of no size, which are only notes though there is none.
fn empty() -> Vec<Case> {
    let mut cases = Vec::new();
    for (name, vaddr) in [("here", AT), ("high", 0xc000_0000), ("top", 0xffff_ffff), ("0", 0)] {
        let mut elf = program();
        elf.headers.insert(0, load(vaddr, Vec::new(), 0, WRITE));
        cases.push(over(format!("empty-{name}"), elf.bytes()));
    }
    cases.push(over("empty-alone", Elf::of(vec![load(AT, Vec::new(), 0, WRITE)]).bytes()));
    cases.push(beneath("empty-kernel", Elf::of(vec![load(AT, Vec::new(), 0, ALL)]).bytes()));
    let mut file = program();
    file.headers.insert(0, load(AT, marks(1, 1), 0, WRITE));
    cases.push(over("empty-with-a-byte", file.bytes()));
    let mut only = program();
    only.headers.truncate(1);
    only.headers.push(note(NOTE, 0x0040_0000, 0x40));
    cases.push(over("nothing-but-notes", only.bytes()));
    cases.push(over("no-header", Elf { entry: 0, headers: vec![], symbols: vec![] }.bytes()));
    cases.push(beneath("no-header-of-the-kernel", Elf::of(vec![note(NOTE, 4, 4)]).bytes()));
    cases
}

/// What is only notes may be as wrong as it likes, but for more bytes in the file than in memory.
fn careless() -> Vec<Case> {
    let mut cases = Vec::new();
    for (name, at, word) in [
        ("offset", OFFSET, 0xffff_fff0),
        ("beyond", OFFSET, 0x1_0000),
        ("flags", FLAGS, 0xffff_ffff),
        ("paddr", PADDR, 0xffff_ffff),
        ("filesz-0", FILESZ, 0),
        ("filesz-48", FILESZ, 48),
        ("filesz-49", FILESZ, 49),
        ("filesz-far", FILESZ, 0xffff_ffff),
    ] {
        let mut file = noted(&[(NOTE, AT, 48)], false).bytes();
        put32(&mut file, header_at(1) + at, word);
        cases.push(over(format!("careless-{name}"), file));
    }
    // Only notes at places where a segment would overlap or be outside, and larger than a segment may be.
    for (name, vaddr) in [("overlap", 0x0040_0010), ("stack", 0x7fff_f000), ("high", 0x8000_0000)] {
        let mut elf = program();
        elf.headers.push(note(NOTE, vaddr, 16));
        elf.headers.push(load(vaddr, marks(4, 16), 16, WRITE));
        cases.push(over(format!("careless-{name}"), elf.bytes()));
    }
    let mut elf = program();
    elf.headers.push(load(AT, marks(4, 16), 0x2_0000, WRITE));
    elf.headers.push(note(NOTE, AT, 0x2_0000));
    cases.push(over("careless-large", elf.bytes()));
    // The entry point in what is only notes, and a segment covered by a note that is not.
    elf.entry = AT;
    cases.push(over("entry-in-notes", elf.bytes()));
    let covered = program().headers[0].clone();
    let elf = Elf::of(vec![covered.clone(), note(NOTE, 0x0040_0000, 0x3f)]);
    cases.push(over("note-of-one-less", elf.bytes()));
    let elf = Elf::of(vec![covered, note(NOTE, 0x0040_0000, 0x40)]);
    cases.push(over("note-of-all", elf.bytes()));
    cases
}

/// Kernels with notes for another loader before them, as linkers make them.
fn kernels() -> Vec<Case> {
    let mut elf = kernel();
    elf.headers.splice(
        0..0,
        [
            note(ABIFLAGS, 0x0040_00b8, 0x18),
            note(REGINFO, 0x0040_00d0, 0x18),
            load(0x0040_00b8, marks(7, 0x30), 0x30, READ),
        ],
    );
    let file = elf.bytes();
    let mut short = file.clone();
    put32(&mut short, header_at(1) + MEMSZ, 0x17);
    vec![
        beneath("kernel-with-notes", file.clone()),
        beneath("kernel-with-short-notes", short.clone()),
        alone("alone-with-notes", file),
        alone("alone-with-short-notes", short),
        user("notes-in-both", vec![elf.bytes(), noted(&[(NOTE, AT, 48)], true).bytes()]),
    ]
}
