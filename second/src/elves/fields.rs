//! Each field of the file header at its edges.

use super::make::*;
use super::{alone, beneath, kernel, over, program, value, Case};

/// What a byte of the identification becomes.
const BYTES: [u8; 6] = [0, 1, 2, 3, 0x7f, 0xff];
/// What a field of two bytes becomes.
const HALVES: [u32; 24] = [
    0, 1, 2, 3, 4, 7, 8, 9, 10, 31, 32, 33, 39, 40, 41, 63, 64, 65, 0x200, 0x800, 0x7fff, 0x8000,
    0xfffe, 0xffff,
];
/// What a field of four bytes becomes; its edges at the file's end are added.
const WORDS: [u32; 17] = [
    0,
    1,
    2,
    3,
    4,
    51,
    52,
    53,
    0xffff,
    0x7fff_efff,
    0x7fff_f000,
    0x7fff_ffff,
    0x8000_0000,
    0x8000_0001,
    0xffff_ffc0,
    0xffff_fffc,
    0xffff_ffff,
];

/// Gives a file with one field changed after the other, each with what was changed.
fn changed(file: &[u8], tables: [u32; 2]) -> Vec<(String, Vec<u8>)> {
    let mut all = Vec::new();
    let mut add = |at: usize, what: u32, change: &dyn Fn(&mut [u8])| {
        let mut copy = file.to_vec();
        change(&mut copy);
        all.push((format!("field-{at}-{what:x}"), copy));
    };
    for at in 0..16 {
        for byte in BYTES {
            add(at, byte as u32, &|file| file[at] = byte);
        }
    }
    for at in [16, 18, 40, 42, 44, 46, 48, 50] {
        for half in HALVES {
            add(at, half, &|file| put16(file, at, half));
        }
    }
    let length = file.len() as u32;
    for at in [20, ENTRY, TABLE, SECTIONS, 36] {
        let mut words = WORDS.to_vec();
        // A table that ends where the file does, or one byte before or after.
        let table = if at == SECTIONS { tables[1] } else { tables[0] };
        words.extend([length - table - 1, length - table, length - table + 1]);
        words.extend([length - 1, length, length + 1]);
        words.sort_unstable();
        words.dedup();
        for word in words {
            add(at, word, &|file| put32(file, at, word));
        }
    }
    all
}

/// Gives the small program or kernel with two symbols.
fn with_symbols(elf: Elf) -> Vec<u8> {
    Elf { symbols: vec![symbol(b"first", 0x1234), symbol(b"second", 0x5678)], ..elf }.bytes()
}

/// Gives the cases, under every task.
pub fn cases() -> Vec<Case> {
    let user = with_symbols(program());
    let below = with_symbols(kernel());
    let mut cases = Vec::new();
    for (name, file) in changed(&user, [64, 160]) {
        cases.push(over(format!("program-{name}"), file.clone()));
        cases.push(value(format!("symbol-{name}"), file, b"second"));
    }
    for (name, file) in changed(&below, [32, 160]) {
        cases.push(beneath(format!("kernel-{name}"), file.clone()));
        cases.push(alone(format!("alone-{name}"), file));
    }
    cases.extend(pairs(&user));
    cases
}

/// A name and what it does to a file.
type Wrong<'a> = (&'a str, &'a dyn Fn(&mut [u8]));

/// Fields that are refused one after the other: each pair of them, of which the first counts.
fn pairs(file: &[u8]) -> Vec<Case> {
    let wrongs: [Wrong; 10] = [
        ("magic", &|file| file[3] = b'f'),
        ("class", &|file| file[4] = 2),
        ("order", &|file| file[5] = 1),
        ("machine", &|file| put16(file, MACHINE, 10)),
        ("type", &|file| put16(file, TYPE, 3)),
        ("size", &|file| put16(file, HEADER_SIZE, 56)),
        ("count", &|file| put16(file, HEADERS, 33)),
        ("table", &|file| put32(file, TABLE, 0xffff_ffff)),
        ("segment", &|file| put32(file, header_at(0) + OFFSET, 0xffff_ffff)),
        ("entry", &|file| put32(file, ENTRY, 2)),
    ];
    let mut cases = Vec::new();
    for (i, (one, wrong)) in wrongs.iter().enumerate() {
        for (other, worse) in &wrongs[i + 1..] {
            let mut copy = file.to_vec();
            wrong(&mut copy);
            worse(&mut copy);
            cases.push(over(format!("both-{one}-{other}"), copy.clone()));
            cases.push(value(format!("symbol-both-{one}-{other}"), copy.clone(), b"second"));
            cases.push(over(format!("short-{one}-{other}"), copy[..51].to_vec()));
        }
    }
    cases
}
