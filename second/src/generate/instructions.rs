//! Random instruction words of every class with plausible operands.

use super::random::Random;
use crate::assemble::*;

/// Registers that hold addresses of data.
pub const POINTERS: [u32; 8] = [16, 17, 18, 19, 20, 21, 22, 23];
/// Registers that hold addresses of code.
pub const CODE_POINTERS: [u32; 2] = [24, 25];
/// Registers that hold a highest and a lowest number.
pub const EXTREMES: [u32; 2] = [14, 15];
/// A register that holds a Status value that is built.
pub const STATUS_REGISTER: u32 = 26;
/// A register that holds a legal page mask.
pub const MASK_REGISTER: u32 = 27;
/// A register whose low word is zero until a handler uses it.
pub const ZERO_REGISTER: u32 = 28;

const REGISTER_FUNCTIONS: [u32; 14] =
    [0x20, 0x21, 0x22, 0x23, 0x24, 0x25, 0x26, 0x27, 0x2a, 0x2b, 0x2c, 0x2d, 0x2e, 0x2f];
const SHIFT_FUNCTIONS: [u32; 15] =
    [0x00, 0x02, 0x03, 0x04, 0x06, 0x07, 0x14, 0x16, 0x17, 0x38, 0x3a, 0x3b, 0x3c, 0x3e, 0x3f];
const HI_LO_FUNCTIONS: [u32; 12] =
    [0x10, 0x11, 0x12, 0x13, 0x18, 0x19, 0x1a, 0x1b, 0x1c, 0x1d, 0x1e, 0x1f];
const DIVISION_FUNCTIONS: [u32; 4] = [0x1a, 0x1b, 0x1e, 0x1f];
const IMMEDIATE_OPCODES: [u32; 10] = [0x08, 0x09, 0x0a, 0x0b, 0x0c, 0x0d, 0x0e, 0x0f, 0x18, 0x19];
const TRAP_FUNCTIONS: [u32; 6] = [0x30, 0x31, 0x32, 0x33, 0x34, 0x36];
const TRAP_CODES: [u32; 6] = [0x08, 0x09, 0x0a, 0x0b, 0x0c, 0x0e];
const BRANCH_OPCODES: [u32; 8] = [0x04, 0x05, 0x06, 0x07, 0x14, 0x15, 0x16, 0x17];
const BRANCH_CODES: [u32; 8] = [0x00, 0x01, 0x02, 0x03, 0x10, 0x11, 0x12, 0x13];
const TLB_WORDS: [u32; 4] = [TLBR, TLBWI, TLBWR, TLBP];

/// Loads and stores with the bytes their address must be a multiple of.
const ACCESSES: [(u32, u32); 27] = [
    (0x20, 1),
    (0x24, 1),
    (0x21, 2),
    (0x25, 2),
    (0x23, 4),
    (0x27, 4),
    (0x37, 8),
    (0x22, 1),
    (0x26, 1),
    (0x1a, 1),
    (0x1b, 1),
    (0x28, 1),
    (0x29, 2),
    (0x2b, 4),
    (0x3f, 8),
    (0x2a, 1),
    (0x2e, 1),
    (0x2c, 1),
    (0x2d, 1),
    (0x30, 4),
    (0x34, 8),
    (0x38, 4),
    (0x3c, 8),
    (0x23, 4),
    (0x2b, 4),
    (0x37, 8),
    (0x3f, 8),
];

/// Gives a register, r0 and r31 included at times.
fn register(random: &mut Random) -> u32 {
    match random.below(8) {
        0 => random.word_below(32),
        _ => 1 + random.word_below(15),
    }
}

/// Gives a register to write, r0 about once in 16 times.
fn destination(random: &mut Random) -> u32 {
    if random.one_in(16) {
        0
    } else {
        register(random)
    }
}

/// Gives an immediate, small ones being likelier.
fn immediate_value(random: &mut Random) -> u32 {
    match random.below(4) {
        0 => random.pick(&[0, 1, 0x7fff, 0x8000, 0xffff]),
        1 => random.word_below(0x1_0000),
        _ => random.word_below(64).wrapping_sub(32) & 0xffff,
    }
}

/// Gives a word that computes.
fn computing(random: &mut Random) -> u32 {
    let (rs, rt, rd) = (register(random), register(random), destination(random));
    match random.below(4) {
        0 => special(random.pick(&REGISTER_FUNCTIONS), rs, rt, rd, 0),
        1 => special(random.pick(&SHIFT_FUNCTIONS), rs, rt, rd, random.word_below(32)),
        2 => special(random.pick(&HI_LO_FUNCTIONS), rs, rt, rd, 0),
        _ => immediate(random.pick(&IMMEDIATE_OPCODES), rs, rd, immediate_value(random)),
    }
}

/// Gives a load or store near a pointer, aligned most of the time.
fn accessing(random: &mut Random) -> u32 {
    let (opcode, alignment) = random.pick(&ACCESSES);
    let base = if random.one_in(16) { register(random) } else { random.pick(&POINTERS) };
    let mut offset = match random.below(4) {
        0 => random.word_below(0x2000).wrapping_sub(0x1000),
        _ => random.word_below(64).wrapping_sub(16),
    };
    if !random.one_in(12) {
        offset &= !(alignment - 1);
    }
    // A plain store only reads its register.
    let rt = match opcode {
        0x28..=0x2e | 0x3f => register(random),
        _ => destination(random),
    };
    access(opcode, rt, offset & 0xffff, base)
}

/// Gives a load linked and a conditional store from the same pointer.
fn linked(random: &mut Random) -> Vec<u32> {
    let base = random.pick(&POINTERS);
    let offset = 8 * random.word_below(8);
    let (load, store) = random.pick(&[(0x30, 0x38), (0x34, 0x3c), (0x30, 0x3c)]);
    let mut words = vec![access(load, destination(random), offset, base)];
    if random.one_in(2) {
        words.push(plain(random));
    }
    words.push(access(store, destination(random), offset, base));
    words
}

/// Gives two divisions by zero or a zero low word, HI or LO of each copied.
fn dividing_by_zero(random: &mut Random) -> Vec<u32> {
    let zeros = [0, 0, ZERO_REGISTER];
    let mut words = Vec::new();
    for _ in 0..2 {
        let dividend = if random.one_in(3) { random.pick(&zeros) } else { register(random) };
        let divisor = random.pick(&zeros);
        words.push(special(random.pick(&DIVISION_FUNCTIONS), dividend, divisor, 0, 0));
        words.push(special(random.pick(&[0x10, 0x12]), 0, 0, destination(random), 0));
    }
    words
}

/// Gives a branch or jump whose target is mostly near.
fn leaving(random: &mut Random, code_index: u32) -> u32 {
    let distance = match random.below(16) {
        0 => random.word_below(0x1_0000),
        _ => random.word_below(12).wrapping_sub(4) & 0xffff,
    };
    let (rs, rt) = (register(random), register(random));
    match random.below(10) {
        0..=4 => {
            let opcode = random.pick(&BRANCH_OPCODES);
            let rt = match opcode & 7 {
                6 | 7 => 0,
                _ if random.one_in(3) => rs,
                _ => rt,
            };
            immediate(opcode, rs, rt, distance)
        }
        5..=7 => regimm(random.pick(&BRANCH_CODES), rs, distance),
        8 => jump(2 + random.word_below(2), code_index + random.word_below(32)),
        _ => {
            let target = if random.one_in(8) { rs } else { random.pick(&CODE_POINTERS) };
            special(0x08 + random.word_below(2), target, 0, random.pick(&[0, 5, 31]), 0)
        }
    }
}

/// Gives a word that moves to or from CP0.
fn moving(random: &mut Random) -> u32 {
    let number = random.word_below(32);
    match random.below(8) {
        0..=2 => cp0_move(random.word_below(2), register(random), number),
        3 if random.one_in(2) => cp0_move(4 + random.word_below(2), STATUS_REGISTER, 12),
        3 => cp0_move(4 + random.word_below(2), MASK_REGISTER, 5),
        4 => cp0_move(4 + random.word_below(2), register(random), random.pick(&[9, 11, 13])),
        _ => {
            let stops = number == 12 || number == 5;
            let number = if stops && !random.one_in(2) { 10 } else { number };
            cp0_move(4 + random.word_below(2), register(random), number)
        }
    }
}

/// Gives a word that raises or may raise an exception by itself.
fn raising(random: &mut Random) -> u32 {
    let (rs, rt) = (register(random), register(random));
    match random.below(14) {
        0 => SYSCALL | random.word_below(1 << 20) << 6,
        1 => BREAK | random.word_below(1 << 20) << 6,
        2..=4 => special(random.pick(&TRAP_FUNCTIONS), rs, rt, 0, 0),
        5..=7 => regimm(random.pick(&TRAP_CODES), rs, immediate_value(random)),
        8 => random.pick(&[0x4400_0000, 0x4800_0000, 0xc400_0000, 0xe800_0000, 0xdc00_0000]),
        9 => random.pick(&[0x4c00_0000, 0x7000_0000, 0xcc00_0000, 0xec00_0000, 0x0000_0001]),
        10 => 0x4000_0000 | random.word_below(1 << 26),
        11 | 12 => {
            let function = random.pick(&[0x20, 0x22, 0x2c, 0x2e]);
            let rd = destination(random);
            special(function, random.pick(&EXTREMES), random.pick(&EXTREMES), rd, 0)
        }
        _ => random.next() as u32,
    }
}

/// Gives one word that is no branch.
fn plain(random: &mut Random) -> u32 {
    match random.below(20) {
        0..=6 => computing(random),
        7..=13 => accessing(random),
        14..=16 => moving(random),
        17 => random.pick(&TLB_WORDS),
        18 => raising(random),
        _ => random.pick(&[NOP, SYNC, access(0x2f, 0, 0, 16), access(0x2f, 9, 3, 1)]),
    }
}

/// Gives the next few words of a program whose code begins at a jump index.
pub fn some(random: &mut Random, code_index: u32) -> Vec<u32> {
    match random.below(16) {
        0..=3 => {
            let slot = if random.one_in(24) { leaving(random, code_index) } else { plain(random) };
            vec![leaving(random, code_index), slot]
        }
        4 => linked(random),
        5 if random.one_in(4) => vec![ERET],
        6 => dividing_by_zero(random),
        _ => vec![plain(random)],
    }
}

/// Gives a program of at least some length.
pub fn program(random: &mut Random, code_index: u32, length: usize) -> Vec<u32> {
    let mut words = Vec::new();
    while words.len() < length {
        words.extend(some(random, code_index));
    }
    words
}

#[cfg(test)]
mod tests {
    use super::*;
    use crate::decode::decode;
    use crate::instruction::Code;
    use std::collections::BTreeSet;

    #[test]
    fn every_instruction_class_occurs() {
        let mut random = Random::new(11, 1);
        let words = program(&mut random, 0x400, 60_000);
        let decoded: BTreeSet<String> =
            words.iter().map(|word| format!("{:?}", decode(Code(*word)))).collect();
        let mut all = BTreeSet::new();
        for word in (0..64u32).map(|opcode| opcode << 26).chain(0..64) {
            all.insert(format!("{:?}", decode(Code(word))));
        }
        all.extend((0..32).map(|rt| format!("{:?}", decode(Code(0x0400_0000 | rt << 16)))));
        all.extend((0..64).map(|f| format!("{:?}", decode(Code(0x4200_0000 | f)))));
        all.extend((0..32).map(|rs| format!("{:?}", decode(Code(0x4000_0000 | rs << 21)))));
        assert_eq!(all.difference(&decoded).collect::<Vec<_>>(), Vec::<&String>::new());
    }
}
