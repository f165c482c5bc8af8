//! Pairs of User worlds that differ in a neighbour's slots and unreached bytes, run side by side.

use std::collections::BTreeSet;

use super::instructions::{CODE_POINTERS, POINTERS};
use super::program::draft_with;
use super::random::Random;
use super::values;
use crate::address::Use;
use crate::assemble::access;
use crate::decode::decode;
use crate::draft::CODE;
use crate::exception::Stop;
use crate::execute::check;
use crate::image::{read, RAM_LENGTH};
use crate::instruction::Code;
use crate::machine::Machine;
use crate::memory::{Memory, ROM_START};
use crate::neighbours::{is_neighbours, meetings};
use crate::reached::{reached, Reached, BLOCK};
use crate::step::step;
use crate::tlb::{fresh_slot, Slot, PAGE_BITS};

/// The bits of Status that tell a User program without CU0, and what they are then.
const MODE: u64 = 0x1000_0016;
const USER: u64 = 0x10;

/// How seldom a neighbour's slot of a world lies over a page that is used.
const TIMES: [u64; 3] = [1, 8, 32];

/// A machine with its memory.
#[derive(Clone)]
struct World {
    machine: Machine,
    ram: Vec<u8>,
    rom: Vec<u8>,
}

impl World {
    /// Tells whether the next step is one of a User program without CU0.
    fn is_user(&self) -> bool {
        self.machine.cp0.status as u64 & MODE == USER
    }

    /// Gives the uses of the next step at addresses that a neighbour's slot covers.
    fn meetings(&mut self, lines: u32) -> Vec<Use> {
        let World { machine, ram, rom } = self;
        meetings(machine, &Memory { ram, rom }, lines)
    }

    /// Takes a step.
    fn step(&mut self, lines: u32) -> Result<(), Stop> {
        let World { machine, ram, rom } = self;
        step(machine, &mut Memory { ram, rom }, lines)
    }

    /// Gives what User addresses reach.
    fn reached(&self) -> Reached {
        reached(&self.machine, self.ram.len(), self.rom.len())
    }
}

/// Gives a half of an entry, its frame mostly in RAM.
fn half(random: &mut Random) -> u32 {
    let frame = match random.below(8) {
        0 => random.word_below(1 << 24),
        1 => (ROM_START >> 12) as u32 + random.word_below(2),
        _ => random.word_below(16),
    };
    frame << 6 | values::entry_bits(random) & !1
}

/// Gives a neighbour's slot, once in so many times over a page that the machine may use.
fn neighbour(random: &mut Random, machine: &Machine, times: u64) -> Slot {
    let asid = machine.cp0.asid();
    let mask = values::mask(random);
    let address = match random.below(8 * times) {
        0 | 1 => machine.pc as u32,
        2..=4 => machine.gpr[random.pick(&POINTERS) as usize] as u32,
        5..=7 => random.pick(&machine.tlb).page,
        _ => random.next() as u32,
    };
    Slot {
        mask,
        page: address & PAGE_BITS & !mask,
        asid: asid ^ (1 + random.word_below(255)),
        global: false,
        even: half(random),
        odd: half(random),
    }
}

/// Gives an access to data that User mode allows.
fn accessing(random: &mut Random) -> u32 {
    let opcode = random.pick(&[0x20, 0x22, 0x23, 0x26, 0x28, 0x2a, 0x2b, 0x2e, 0x30, 0x38]);
    access(opcode, random.word_below(16), 4 * random.word_below(8), random.pick(&POINTERS))
}

/// Puts accesses in place of most words of the program that User mode does not allow.
fn allow(random: &mut Random, machine: &Machine, ram: &mut [u8]) {
    for four in ram[CODE as usize..][..0x100].chunks_exact_mut(4) {
        let code = Code(u32::from_be_bytes([four[0], four[1], four[2], four[3]]));
        if check(machine, code, decode(code)).is_err() && !random.one_in(8) {
            four.copy_from_slice(&accessing(random).to_be_bytes());
        }
    }
}

/// Gives a random User world with slots of several address spaces.
fn world(random: &mut Random) -> World {
    let mut status = values::status(random);
    while status & MODE != USER {
        status = values::status(random);
    }
    let mut ram = vec![0; RAM_LENGTH];
    let text = draft_with(random, status).text();
    let mut machine = read(text.as_bytes(), &mut ram).unwrap().machine;
    allow(random, &machine, &mut ram);
    machine.link = random.one_in(2);
    if random.one_in(8) {
        machine.slot = true;
        machine.target = machine.gpr[random.pick(&CODE_POINTERS) as usize];
    }
    let times = random.pick(&TIMES);
    for place in 0..machine.tlb.len() {
        let slot = machine.tlb[place];
        if slot == fresh_slot(place) && random.one_in(2) {
            machine.tlb[place] = neighbour(random, &machine, times);
        } else if random.one_in(8) {
            machine.tlb[place].global = true;
        } else if random.one_in(8) {
            machine.tlb[place].odd = half(random);
        }
    }
    let rom = vec![0x24; 8 * random.below(1025) as usize];
    World { machine, ram, rom }
}

/// Makes the bytes random that are not reached.
fn scramble(random: &mut Random, bytes: &mut [u8], start: u64, reached: &Reached) {
    for (number, block) in bytes.chunks_mut(BLOCK).enumerate() {
        if !reached.valid.contains(&(start + number as u64)) {
            block.iter_mut().for_each(|byte| *byte = random.next() as u8);
        }
    }
}

/// Gives a world that differs in the neighbour's slots and in the bytes that are not reached.
fn other(random: &mut Random, world: &World) -> World {
    let mut other = world.clone();
    let asid = world.machine.cp0.asid();
    let times = random.pick(&TIMES);
    for place in 0..other.machine.tlb.len() {
        if is_neighbours(&world.machine.tlb[place], asid) && !random.one_in(8) {
            other.machine.tlb[place] = neighbour(random, &world.machine, times);
        }
    }
    let reached = world.reached();
    assert_eq!(reached, other.reached());
    scramble(random, &mut other.ram, 0, &reached);
    scramble(random, &mut other.rom, ROM_START / BLOCK as u64, &reached);
    other
}

/// Gives the blocks of RAM that are in a set, or those that are not.
fn blocks<'a>(ram: &'a [u8], set: &BTreeSet<u64>, inside: bool) -> Vec<&'a [u8]> {
    let numbered = ram.chunks(BLOCK).zip(0..);
    numbered.filter(|(_, number)| set.contains(number) == inside).map(|(block, _)| block).collect()
}

/// Asserts that two worlds are alike but for the slots of a neighbour and what is not reached.
fn assert_alike(a: &World, b: &World, reached: &Reached, name: u64) {
    let asid = a.machine.cp0.asid();
    let mut machine = b.machine.clone();
    for (slot, own) in machine.tlb.iter_mut().zip(&a.machine.tlb) {
        if is_neighbours(slot, asid) && is_neighbours(own, asid) {
            *slot = *own;
        }
    }
    assert_eq!(machine, a.machine, "world {name}");
    let [a, b] = [a, b].map(|world| blocks(&world.ram, &reached.valid, true));
    assert!(a == b, "reached bytes of world {name}");
}

/// Asserts that a world keeps its slots and the bytes that no valid and dirty half reaches.
fn assert_kept(first: &World, now: &World, reached: &Reached, name: u64) {
    assert_eq!(first.machine.tlb, now.machine.tlb, "world {name}");
    let [first, now] = [first, now].map(|world| blocks(&world.ram, &reached.dirty, false));
    assert!(first == now, "kept bytes of world {name}");
}

/// Runs two worlds side by side up to the first step that leaves User mode or stops.
fn side_by_side(first: [World; 2], lines: u32, steps: u32, name: u64) -> BTreeSet<Use> {
    let reached = first[0].reached();
    let mut found = BTreeSet::new();
    let [mut a, mut b] = first.clone();
    assert_alike(&a, &b, &reached, name);
    for _ in 0..steps {
        found.extend([a.meetings(lines), b.meetings(lines)].concat());
        let ends = [a.step(lines), b.step(lines)];
        assert_eq!(ends[0], ends[1], "world {name}");
        assert_alike(&a, &b, &reached, name);
        assert_kept(&first[0], &a, &reached, name);
        assert_kept(&first[1], &b, &reached, name);
        if ends[0].is_err() || !a.is_user() {
            break;
        }
    }
    found
}

#[test]
fn a_neighbours_slots_and_unreached_bytes_make_no_difference() {
    const WORLDS: u64 = 3000;
    let mut counts = [0; 3];
    let mut any = 0;
    for number in 0..WORLDS {
        let mut random = Random::new(10, number);
        let a = world(&mut random);
        let b = other(&mut random, &a);
        assert!(a.is_user() && a.machine.in_range() && b.machine.in_range());
        let lines = if random.one_in(6) { random.word_below(32) } else { 0 };
        let found = side_by_side([a, b], lines, 64, number);
        any += !found.is_empty() as u64;
        for (count, purpose) in counts.iter_mut().zip([Use::Fetch, Use::Load, Use::Store]) {
            *count += found.contains(&purpose) as u64;
        }
    }
    assert!(any > WORLDS / 2 && counts.iter().all(|n| *n > WORLDS / 5), "{any} {counts:?}");
}
