//! A kernel and programs that nothing speaks against, curated and random.

use super::make::*;
use super::{kernel, program};
use crate::generate::random::Random;

/// A kernel and the programs over it.
#[derive(Clone, Debug)]
pub struct World {
    pub name: String,
    pub kernel: Elf,
    pub programs: Vec<Elf>,
}

/// Names the parts of a program: an address, the bytes of the file, those of memory, and flags.
type Part = (u32, u32, u32, u32);

/// Gives a program of parts.
fn of(tag: u32, parts: &[Part]) -> Elf {
    let part = |(i, p): (usize, &Part)| load(p.0, sparse(tag + i as u32, p.1), p.2, p.3);
    let elf = Elf::of(parts.iter().enumerate().map(part).collect());
    let entry = elf.headers.iter().find(|h| h.vaddr % 4 == 0).map_or(0, |h| h.vaddr);
    elf.entered(entry)
}

/// Programs by themselves, in a few parts each.
const SHAPES: [(&str, &[Part]); 22] = [
    ("one", &[(0x40_0000, 0x40, 0x40, CODE)]),
    ("one-byte-more-than-a-page", &[(0x40_0000, 0x1001, 0x1001, CODE)]),
    ("one-page", &[(0x40_0000, 0x1000, 0x1000, CODE)]),
    ("at-0", &[(0, 0x1000, 0x1000, CODE)]),
    ("only-a-tail", &[(0x40_0000, 0, 0x2800, WRITE)]),
    ("a-long-tail", &[(0x40_0000, 4, 0x5004, WRITE)]),
    ("odd-half", &[(0x40_1000, 0x40, 0x40, CODE)]),
    ("pair", &[(0x40_0ffc, 0x10, 0x10, CODE)]),
    ("two-pairs", &[(0x40_1ffc, 0x10, 0x10, CODE)]),
    ("both-halves", &[(0x40_0000, 0x20, 0x20, CODE), (0x40_1000, 0x20, 0x20, WRITE)]),
    ("halves-turned", &[(0x40_1000, 0x20, 0x20, WRITE), (0x40_0000, 0x20, 0x20, CODE)]),
    ("shared-page", &[(0x40_0000, 0x20, 0x20, CODE), (0x40_0800, 0x20, 0x40, WRITE)]),
    ("shared-page-turned", &[(0x40_0800, 0x20, 0x40, WRITE), (0x40_0000, 0x20, 0x20, CODE)]),
    ("shared-clean-page", &[(0x40_0000, 0x20, 0x20, CODE), (0x40_0800, 0x20, 0x40, READ)]),
    ("adjoining", &[(0x40_0000, 0x801, 0x801, CODE), (0x40_0801, 0x20, 0x1900, WRITE)]),
    ("around-a-page", &[(0x40_0000, 0x1800, 0x1800, CODE), (0x40_1800, 0x1800, 0x1800, WRITE)]),
    ("by-the-stack", &[(0x7fff_e000, 0x1000, 0x1000, CODE)]),
    ("by-the-stack-and-away", &[(0x7fff_d000, 0x20, 0x2000, WRITE), (0, 4, 4, CODE)]),
    ("writable-code", &[(0x40_0000, 0x40, 0x40, ALL)]),
    ("flags-8", &[(0x40_0000, 0x40, 0x40, 8), (0x50_0000, 4, 4, 0xffff_fffd)]),
    ("flags-2", &[(0x40_0000, 0x40, 0x40, 2), (0x50_0000, 4, 4, 0xffff_ffff)]),
    (
        "four",
        &[
            (0x50_0010, 0x10, 0x1000, WRITE),
            (0x40_0000, 0x1234, 0x1234, CODE),
            (0x40_1234, 0x40, 0x40, READ),
            (0x40_3ff0, 0x10, 0x20, WRITE),
        ],
    ),
];

/// Gives the curated worlds.
pub fn curated() -> Vec<World> {
    let world = |name: String, programs| World { name, kernel: kernel(), programs };
    let mut worlds = Vec::new();
    for (i, (name, parts)) in SHAPES.iter().enumerate() {
        worlds.push(world(format!("shape-{name}"), vec![of(i as u32, parts)]));
        let programs = vec![program(), of(i as u32 + 9, parts)];
        worlds.push(world(format!("shape-{name}-second"), programs));
    }
    // Seven programs at one address, each with a page and its stack: 15 pages with the kernel's.
    let small = |tag: u32| of(tag, &[(0x40_0000, 0x20, 0x20 + tag, CODE + (tag & 2))]);
    for count in 2..8 {
        worlds.push(world(format!("{count}-programs"), (0..count).map(small).collect()));
    }
    // All pages of RAM: by one program, by a kernel and a program.
    worlds.push(world("16-pages".into(), vec![of(3, &[(0x40_0000, 0xe000, 0xe000, WRITE)])]));
    let mut large = world("a-large-kernel".into(), vec![of(3, &[(0x40_0000, 8, 8, WRITE)])]);
    large.kernel.headers.push(load(0xa000_d000, marks(8, 8), 0x1000, ALL));
    worlds.push(large);
    // Pages so far from each other that each has its own slot.
    let far: Vec<Part> = (0..14).map(|i| (i * 0x0800_3000, 8, 8, CODE + (i & 2))).collect();
    worlds.push(world("14-slots".into(), vec![of(5, &far)]));
    worlds
}

/// Gives a random address for a part of a program.
fn some_address(random: &mut Random) -> u32 {
    let base = random.pick(&[0, 0x1000, 0x40_0000, 0x40_0000, 0x40_0000, 0x1000_0000, 0x7fff_a000]);
    let page = random.pick(&[0, 0, 0x1000, 0x2000, 0x3000]);
    let edge = random.pick(&[0, 0, 0, 4, 0x10, 0x123, 0x800, 0xffc, 0xfff]);
    base + page + edge
}

/// Gives a random part that no other overlaps.
fn some_part(random: &mut Random, tag: u32, others: &[Header]) -> Option<Header> {
    let vaddr = some_address(random);
    let memsz = random.pick(&[1, 4, 8, 0x20, 0x40, 0x100, 0x800, 0x1000, 0x1001, 0x2000]);
    let filesz = random.pick(&[memsz, memsz, memsz / 2, 1, 0]);
    let end = vaddr + memsz;
    let apart = others.iter().all(|o| end <= o.vaddr || o.vaddr + o.memsz <= vaddr);
    let flags = random.pick(&[CODE, READ, WRITE, ALL, 0, 2]);
    (apart && end <= 0x7fff_f000).then(|| load(vaddr, sparse(tag, filesz), memsz, flags))
}

/// Gives a random program with an entry point in one of its segments.
fn some_program(random: &mut Random, tag: u32) -> Elf {
    let mut headers = vec![load(0x40_0000, marks(tag, 0x20), 0x20, CODE)];
    for more in 0..random.below(4) as u32 {
        headers.extend(some_part(random, tag + more, &headers));
    }
    if random.one_in(3) {
        headers.rotate_left(1);
    }
    let mut elf = Elf::of(headers).entered(0x40_0000 + 4 * random.word_below(8));
    if random.one_in(3) {
        let notes = [
            note(ABIFLAGS, 0x30_00b8, 0x18),
            note(REGINFO, 0x30_00d0, 0x18),
            load(0x30_00b8, marks(7, 0x30), 0x30, READ),
        ];
        elf.headers.splice(0..0, notes);
    }
    if random.one_in(3) {
        elf = named(elf);
    }
    elf
}

/// Gives a program with two symbols.
pub fn named(elf: Elf) -> Elf {
    Elf { symbols: vec![symbol(b"_gp", 0x41_8000), symbol(b"main", elf.entry)], ..elf }
}

/// Gives a random kernel with code at both vectors.
fn some_kernel(random: &mut Random) -> Elf {
    let mut elf = kernel();
    if random.one_in(2) {
        elf = Elf::of(vec![
            load(0x8000_0180, marks(4, 0x40), 0x40 + random.word_below(99), ALL),
            load(0xa000_0000, marks(5, 0x20), 0x20, CODE),
        ]);
    }
    if random.one_in(3) {
        let page = 0x8000_0000 + 0x1000 * random.word_below(4);
        elf.headers.push(load(page + 0x400, marks(6, 0x11), 0x20, WRITE));
    }
    elf
}

/// Gives the random world of a number under a seed; not all of them fit into RAM.
pub fn random(random: &mut Random, name: String) -> World {
    let kernel = some_kernel(random);
    let count = random.pick(&[1, 1, 1, 2, 2, 3]);
    let programs = (0..count).map(|tag| some_program(random, 10 * tag + 3)).collect();
    World { name, kernel, programs }
}

impl World {
    /// Gives the bytes of all files, the kernel's first.
    pub fn files(&self) -> Vec<Vec<u8>> {
        [&self.kernel].into_iter().chain(&self.programs).map(Elf::bytes).collect()
    }
}
