//! Each field of a program header at its edges, and how many headers there are.

use super::make::*;
use super::{alone, beneath, kernel, over, program, Case};

/// What a field becomes; the values around a field's own and around the file's end are added.
const WORDS: [u32; 22] = [
    0,
    1,
    2,
    3,
    4,
    6,
    0xfff,
    0x1000,
    0xffff,
    0x1_0000,
    0x1_0001,
    0x7fff_efff,
    0x7fff_f000,
    0x7fff_ffff,
    0x8000_0000,
    0x8000_ffff,
    0x9fff_ffff,
    0xa000_0000,
    0xbfff_ffff,
    0xc000_0000,
    0xffff_f000,
    0xffff_ffff,
];

/// Gives a file with one field of one header changed after the other.
fn changed(file: &[u8], i: usize) -> Vec<(String, Vec<u8>)> {
    let mut all = Vec::new();
    for at in (0..32).step_by(4) {
        let place = header_at(i) + at;
        let own = u32::from_be_bytes(file[place..place + 4].try_into().unwrap_or_default());
        let mut words = WORDS.to_vec();
        words.extend([own.wrapping_sub(1), own + 1, file.len() as u32, file.len() as u32 + 1]);
        if at == KIND {
            words.extend([NOTE, REGINFO, RTPROC, OPTIONS, ABIFLAGS, 0x7000_0004]);
        }
        words.sort_unstable();
        words.dedup();
        for word in words {
            let mut copy = file.to_vec();
            put32(&mut copy, place, word);
            all.push((format!("header-{i}-{at}-{word:x}"), copy));
        }
    }
    all
}

/// Gives so many segments of four bytes, each adjoining the one before it.
fn many(count: u32, base: u32) -> Elf {
    Elf::of((0..count).map(|i| load(base + 4 * i, marks(i, 4), 4, CODE)).collect())
}

/// Gives the cases.
pub fn cases() -> Vec<Case> {
    let two = program().bytes();
    let mut below = kernel();
    below.headers.push(load(0x8000_1000, marks(5, 0x20), 0x30, WRITE));
    let below = below.bytes();
    let mut cases = Vec::new();
    for i in 0..2 {
        for (name, file) in changed(&two, i) {
            cases.push(over(format!("program-{name}"), file));
        }
        for (name, file) in changed(&below, i) {
            cases.push(beneath(format!("kernel-{name}"), file.clone()));
            if i == 0 {
                cases.push(alone(format!("alone-{name}"), file));
            }
        }
    }
    for count in [1, 2, 31, 32, 33, 34, 255, 256] {
        cases.push(over(format!("program-of-{count}-headers"), many(count, 0x40_0000).bytes()));
        cases.push(alone(format!("alone-of-{count}-headers"), many(count, 0x8000_0000).bytes()));
    }
    cases.extend(counts());
    cases.extend(tables());
    cases
}

/// Counts that say more or less than the file has.
fn counts() -> Vec<Case> {
    let file = many(32, 0x40_0000).bytes();
    [0, 1, 31, 32, 33, 34, 0x0140, 0x7fff, 0x8000, 0xffff]
        .map(|count| {
            let mut file = file.clone();
            put16(&mut file, HEADERS, count);
            over(format!("count-{count}-of-32"), file)
        })
        .to_vec()
}

/// Tables at other places than after the file header.
fn tables() -> Vec<Case> {
    let mut cases = Vec::new();
    // At the very end; cut short by one byte; with a byte after it; said to be one byte later.
    let file = program().bytes();
    let table = file[52..116].to_vec();
    let mut moved = file.clone();
    moved.extend_from_slice(&table);
    put32(&mut moved, TABLE, file.len() as u32);
    cases.push(over("table-at-the-end", moved.clone()));
    cases.push(over("table-cut-by-one", moved[..moved.len() - 1].to_vec()));
    let mut more = moved.clone();
    more.push(0);
    cases.push(over("table-before-one", more));
    put32(&mut moved, TABLE, file.len() as u32 + 1);
    cases.push(over("table-one-later", moved));
    // Within the file header, whose words mean something else.
    for place in [0, 4, 16, 20, 48] {
        let mut inside = file.clone();
        put32(&mut inside, TABLE, place);
        cases.push(over(format!("table-at-{place}"), inside));
    }
    // A table of none at the end, and one byte beyond it.
    for (name, place) in [("at", file.len() as u32), ("beyond", file.len() as u32 + 1)] {
        let mut none = file.clone();
        put16(&mut none, HEADERS, 0);
        put32(&mut none, TABLE, place);
        cases.push(over(format!("table-of-none-{name}-the-end"), none));
    }
    // The second header is the first again; a segment's bytes are the table itself.
    let mut twice = file.clone();
    twice.copy_within(52..84, 84);
    cases.push(over("the-same-header-twice", twice));
    let mut itself = file;
    put32(&mut itself, header_at(0) + OFFSET, 52);
    cases.push(over("a-segment-of-the-table", itself));
    cases
}
