//! Tables of symbols: names of every kind, and damage to every field.

use super::make::*;
use super::{over, program, value, Case};

/// Names that a table may have.
fn names() -> Vec<Vec<u8>> {
    let mut names: Vec<Vec<u8>> = [
        "main",
        "mai",
        "main2",
        "a",
        "two words",
        "line\nfeed",
        "\n",
        " ",
        "$(reboot)",
        "`date`",
        "*",
        "?",
        "[a-z]*",
        "-n",
        "--",
        "%s%n",
        "\\",
        "'",
        "\"",
        "~",
        "$HOME",
        ";",
        "|",
        "\t",
        "é",
    ]
    .iter()
    .map(|name| name.as_bytes().to_vec())
    .collect();
    names.extend([vec![0xff, 0xfe], vec![0x80], vec![], vec![b'x'; 300], vec![b'y'; 5000]]);
    names
}

/// Gives the small program with symbols.
fn with(symbols: Vec<Symbol>) -> Elf {
    Elf { symbols, ..program() }
}

/// Gives the file that the damage begins with, the place of its symbols and that of its section headers.
fn plain() -> (Vec<u8>, usize, usize) {
    let elf = with(vec![symbol(b"first", 0x1111), symbol(b"second", 0x8000_2222)]);
    let file = elf.bytes();
    let symbols = program().bytes().len();
    let sections = file.len() - 160;
    (file, symbols, sections)
}

/// Gives the cases.
pub fn cases() -> Vec<Case> {
    let mut cases = Vec::new();
    let all: Vec<Symbol> =
        names().iter().enumerate().map(|(i, name)| symbol(name, 0x1000 * i as u32 + 5)).collect();
    let file = with(all).bytes();
    for (i, name) in names().iter().enumerate() {
        cases.push(value(format!("name-{i}"), file.clone(), name));
        let mut longer = name.clone();
        longer.push(b'z');
        cases.push(value(format!("name-{i}-longer"), file.clone(), &longer));
        let mut shorter = name.clone();
        shorter.pop();
        cases.push(value(format!("name-{i}-shorter"), file.clone(), &shorter));
        let inside = name.get(1..).unwrap_or_default();
        cases.push(value(format!("name-{i}-inside"), file.clone(), inside));
    }
    for (name, long) in [("long", 100_000), ("as-long-as-the-names", file.len())] {
        cases.push(value(format!("name-{name}"), file.clone(), &vec![b'y'; long]));
    }
    // An image does not look at symbols.
    cases.push(over("symbols-in-a-program", file));
    cases.extend(kinds());
    cases.extend(damage());
    cases.extend(places());
    cases.extend(lacking());
    cases
}

/// Symbols that do not count before one that does, twice the same name, and every kind of info.
fn kinds() -> Vec<Case> {
    let mut cases = Vec::new();
    for info in (0..=255).filter(|info| info % 16 == 4 || *info < 20 || info % 30 == 0) {
        for section in [0, 1, 0xfff1, 0xffff] {
            let symbols = vec![
                Symbol { info, section, ..symbol(b"main", 0x1111) },
                symbol(b"main", 0x2222),
                symbol(b"main", 0x3333),
            ];
            let file = with(symbols).bytes();
            cases.push(value(format!("info-{info:x}-{section:x}"), file, b"main"));
        }
    }
    for word in [0, 1, 0x7fff_ffff, 0x8000_0000, 0xffff_ffff] {
        let file = with(vec![symbol(b"main", word)]).bytes();
        cases.push(value(format!("value-{word:x}"), file, b"main"));
    }
    cases
}

/// Every field of every section header and symbol at its edges.
fn damage() -> Vec<Case> {
    let (file, symbols, sections) = plain();
    let length = file.len() as u32;
    let edges = [0, 1, 2, 3, 4, 5, 15, 16, 17, 32, 47, 48, 49, 0x7fff_ffff, 0x8000_0000, !0];
    let mut cases = Vec::new();
    let mut add = |name: String, at: usize, word: u32| {
        let mut copy = file.clone();
        put32(&mut copy, at, word);
        cases.push(value(name, copy, b"second"));
    };
    for section in 0..4 {
        for at in [4, 16, 20, 24] {
            for word in edges.into_iter().chain([length - 1, length, length + 1]) {
                let name = format!("section-{section}-{at}-{word:x}");
                add(name, sections + 40 * section + at, word);
            }
        }
    }
    for i in 0..3 {
        for at in [0, 4, 8, 12] {
            for word in [0, 1, 6, 7, 8, 13, 14, 0x7fff_ffff, 0x8000_0000, 0xffff_fffe, !0] {
                add(format!("symbol-{i}-{at}-{word:x}"), symbols + 16 * i + at, word);
            }
        }
    }
    cases
}

/// Sections that end with the file or one byte beyond, and names that end with their section.
fn places() -> Vec<Case> {
    let (file, symbols, sections) = plain();
    let length = file.len() as u32;
    let (table, strings) = (sections + 80, sections + 120);
    let mut cases = Vec::new();
    let mut add = |name: String, changes: &[(usize, u32)]| {
        let mut copy = file.clone();
        for (at, word) in changes {
            put32(&mut copy, *at, *word);
        }
        cases.push(value(name, copy, b"second"));
    };
    let names = (symbols + 48) as u32;
    for less in 0..4 {
        add(format!("names-less-{less}"), &[(strings + 20, 14 - less)]);
    }
    for (what, header, own) in [("symbols", table, symbols as u32), ("names", strings, names)] {
        add(format!("{what}-to-the-end"), &[(header + 20, length - own)]);
        add(format!("{what}-beyond-the-end"), &[(header + 20, length - own + 1)]);
        add(format!("{what}-wrapping"), &[(header + 20, 0u32.wrapping_sub(own) + 64)]);
    }
    for size in 32..50 {
        add(format!("symbols-of-{size}"), &[(table + 20, size)]);
    }
    // Two tables of symbols: the first counts, though it has no such symbol.
    add("two-tables".into(), &[(sections + 4, 2)]);
    add("two-tables-later".into(), &[(sections + 124, 2)]);
    // The names of a symbol are its own table, or the whole file.
    add("names-in-the-table".into(), &[(table + 24, 2)]);
    add(
        "names-in-the-file".into(),
        &[(table + 24, 1), (sections + 56, 0), (sections + 60, length)],
    );
    cases
}

/// Section headers that do not count, and files that lack some of what is asked.
fn lacking() -> Vec<Case> {
    let (file, symbols, sections) = plain();
    let mut cases = Vec::new();
    let mut add = |name: String, copy: Vec<u8>| cases.push(value(name, copy, b"second"));
    for length in (0..file.len()).filter(|l| *l < 60 || *l > symbols - 2 && l % 3 == 0) {
        add(format!("symbols-cut-{length}"), file[..length].to_vec());
    }
    add("symbols-cut-by-one".into(), file[..file.len() - 1].to_vec());
    for count in [0, 1, 2, 3, 4, 5, 0x7fff, 0xffff] {
        let mut copy = file.clone();
        put16(&mut copy, SECTION_COUNT, count);
        add(format!("sections-{count}"), copy.clone());
        // As many as they say, all zero but those that are there.
        copy.resize(sections + 40 * count as usize, 0);
        add(format!("sections-{count}-there"), copy);
    }
    // The last name has no end.
    let mut copy = file.clone();
    let end = sections - 1;
    copy[end] = b'x';
    add("name-without-end".into(), copy.clone());
    copy[end] = b'd';
    add("name-goes-on".into(), copy);
    cases.push(value("symbol-of-nothing", Vec::new(), b"second"));
    cases.push(value("symbol-without-a-name", file.clone(), b""));
    // Wrong program headers are not asked of a symbol's file.
    for (at, half) in [(HEADER_SIZE, 31), (HEADERS, 33), (HEADERS, 0), (TYPE, 1), (MACHINE, 3)] {
        let mut copy = file.clone();
        put16(&mut copy, at, half);
        cases.push(value(format!("symbol-half-{at}-{half}"), copy, b"second"));
    }
    cases
}
