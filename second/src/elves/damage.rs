//! Damaged cases by a seed: good files with bytes changed, cut or doubled, and settings likewise.

use super::make::*;
use super::worlds;
use super::{Case, BUDGET};
use crate::generate::random::Random;
use crate::generate::texts;
use crate::loader::Task;

/// What a field may become beside what is near it.
const EDGES: [u32; 16] = [
    0,
    1,
    2,
    3,
    4,
    8,
    64,
    65,
    0xfff,
    0x1000,
    0xffff,
    0x1_0000,
    0x7fff_f000,
    0x8000_0000,
    0xa000_0000,
    0xffff_ffff,
];
/// How far a field may move.
const STEPS: [u32; 10] = [1, 2, 4, 8, 0x10, 0x20, 0x40, 0x1000, 0x2000, 0x2_0000];
/// Places of the halves of the file header, but for the version's and the flags'.
const HALVES: [usize; 6] = [TYPE, MACHINE, HEADER_SIZE, HEADERS, SECTION_SIZE, SECTION_COUNT];
/// Names that are asked for.
const NAMES: [&[u8]; 7] = [b"main", b"main", b"_gp", b"_gp", b"mai", b"other", b""];

/// Gives a place in a range, or its first where it is empty.
fn some_place(random: &mut Random, from: usize, to: usize) -> usize {
    from + random.below(to.saturating_sub(from).max(1) as u64) as usize
}

/// Reads a word that may be beyond the end.
fn word_at(file: &[u8], at: usize) -> u32 {
    (0..4).fold(0, |word, i| word << 8 | file.get(at + i).copied().unwrap_or(0) as u32)
}

/// Gives the number of headers, as good files have it.
fn headers_of(file: &[u8]) -> usize {
    (word_at(file, HEADERS) >> 16).clamp(1, 16) as usize
}

/// Moves a word to an edge or a little.
fn shift(random: &mut Random, file: &mut [u8], at: usize) {
    let own = word_at(file, at);
    let step = random.pick(&STEPS);
    let length = file.len() as u32;
    let new = match random.below(8) {
        0 => random.pick(&EDGES),
        1 => random.next() as u32,
        2 => length.wrapping_sub(random.word_below(3)),
        3 => length.wrapping_sub(own),
        4 | 5 => own.wrapping_add(step),
        _ => own.wrapping_sub(step),
    };
    if at + 4 <= file.len() {
        put32(file, at, new);
    }
}

/// Changes some bytes of a range, to others or by one bit.
fn change(random: &mut Random, file: &mut [u8], from: usize, to: usize) {
    let to = to.min(file.len());
    for _ in 0..1 + random.below(3) {
        let at = some_place(random, from, to);
        if let Some(byte) = file.get_mut(at) {
            *byte =
                if random.one_in(2) { random.next() as u8 } else { *byte ^ 1 << random.below(8) };
        }
    }
}

/// Doubles a part, most often behind the headers.
fn double(random: &mut Random, file: &mut Vec<u8>, table: usize) {
    let from = if random.one_in(4) { 0 } else { table };
    let from = some_place(random, from, file.len()).min(file.len());
    let part: Vec<u8> = file[from..].iter().take(64).copied().collect();
    file.splice(from..from, part);
}

/// Takes out a part behind the headers.
fn take_out(random: &mut Random, file: &mut Vec<u8>, table: usize) {
    let from = some_place(random, table, file.len()).min(file.len());
    let to = (from + some_place(random, 1, 40)).min(file.len());
    file.drain(from..to);
}

/// Puts one header over another, or both in each other's place.
fn swap(random: &mut Random, file: &mut [u8], count: usize) {
    let one = header_at(some_place(random, 0, count));
    let other = header_at(some_place(random, 0, count));
    if header_at(count) <= file.len() {
        let copy = file[one..one + 32].to_vec();
        file.copy_within(other..other + 32, one);
        if random.one_in(2) {
            file[other..other + 32].copy_from_slice(&copy);
        }
    }
}

/// Changes a half of the file header.
fn change_half(random: &mut Random, file: &mut [u8]) {
    let at = random.pick(&HALVES);
    let half = random.pick(&[0, 1, 2, 3, 8, 31, 32, 33, 40, 64, 65, 0xffff]);
    if file.len() >= 52 {
        put16(file, at, half);
    }
}

/// Gives a file some damage.
fn damage(random: &mut Random, file: &mut Vec<u8>) {
    let count = headers_of(file);
    let table = header_at(count);
    let length = file.len();
    match random.below(20) {
        0 => change(random, file, 0, 20),
        1 => change(random, file, 16, 52),
        2 => change(random, file, 52, table),
        3..=5 => change(random, file, table, length),
        6..=9 => {
            let i = some_place(random, 0, count);
            let field = random.pick(&[OFFSET, VADDR, VADDR, FILESZ, MEMSZ, MEMSZ, FLAGS, KIND]);
            shift(random, file, header_at(i) + field);
        }
        10 => file.truncate(some_place(random, 0, length)),
        11 => file.truncate(length - some_place(random, 0, length.min(64))),
        12 => double(random, file, table),
        13 => take_out(random, file, table),
        14 => swap(random, file, count),
        15 => {
            let at = random.pick(&[ENTRY, ENTRY, TABLE, SECTIONS]);
            shift(random, file, at);
        }
        16 if random.one_in(4) => change(random, file, 4, 6),
        16 => change_half(random, file),
        17 => change(random, file, length.saturating_sub(250), length),
        18 => file.extend((0..some_place(random, 1, 99)).map(|at| at as u8)),
        _ => {}
    }
}

/// Gives settings, most of them plain, some mutated or damaged.
fn some_settings(random: &mut Random) -> Vec<u8> {
    let frames = [
        "040c0000000000000010\n",
        "01050000000000000007\n",
        "040a0000000000000001\n",
        "0122000000000040001c\n",
        "02000080000000000000000000\n",
        "0406000000000000000c\n",
        "052f00000000800be0000000000000000000\n",
    ];
    let mut text = String::new();
    for _ in 0..random.below(4) {
        text += random.pick(&frames);
    }
    text += "0300000010\n";
    match random.below(16) {
        0 => texts::mutated(random, text),
        1 => texts::damaged(random, text, true),
        2..=5 => text.into_bytes(),
        _ => BUDGET.to_vec(),
    }
}

/// Gives the damaged case of a number under a seed; some of them are as good as before.
pub fn damaged(seed: u64, number: u64) -> Case {
    let mut random = Random::new(seed, number);
    let name = format!("damaged-{seed}-{number}");
    let world = worlds::random(&mut random, name.clone());
    let mut files = world.files();
    let named = worlds::named(world.programs[0].clone()).bytes();
    let settings = some_settings(&mut random);
    let task = match random.below(10) {
        0 => {
            files.truncate(1);
            Task::Kernel
        }
        1 => {
            files = vec![named];
            Task::Symbol(random.pick(&NAMES).to_vec())
        }
        _ => Task::User,
    };
    let at = some_place(&mut random, 0, files.len());
    for _ in 0..random.pick(&[1, 1, 1, 1, 2, 2, 3]) {
        damage(&mut random, &mut files[at]);
    }
    Case { name, task, files, settings }
}
