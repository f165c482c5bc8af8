//! Random values of registers, CP0 registers and TLB entries.

use super::random::Random;
use crate::cp0::number;

/// Values at the ends of bytes, words and doublewords.
const EDGES: [u64; 22] = [
    0,
    1,
    2,
    7,
    31,
    32,
    63,
    64,
    0x7f,
    0x80,
    0x7fff,
    0x8000,
    0xffff,
    0x7fff_ffff,
    0x8000_0000,
    0xffff_ffff,
    0x1_0000_0000,
    0xffff_ffff_8000_0000,
    0xffff_ffff_7fff_ffff,
    0x7fff_ffff_ffff_ffff,
    0x8000_0000_0000_0000,
    0xffff_ffff_ffff_ffff,
];

/// The legal page masks.
pub const MASKS: [u32; 7] = [0, 0x6000, 0x1_e000, 0x7_e000, 0x1f_e000, 0x7f_e000, 0x1ff_e000];

/// The address spaces in use.
pub const SPACES: [u32; 4] = [0, 1, 2, 0xff];

/// Gives a value for a general register.
pub fn operand(random: &mut Random) -> u64 {
    match random.below(8) {
        0..=2 => random.pick(&EDGES),
        3 => random.below(256),
        4 => random.below(256).wrapping_neg(),
        5 => random.next() as i32 as i64 as u64,
        6 => random.next() >> random.below(64),
        _ => random.next(),
    }
}

/// Gives a Status value that is built, of one of several kinds.
pub fn status(random: &mut Random) -> u64 {
    let interrupts = match random.below(12) {
        0 | 1 => random.below(256) << 8 | 1,
        2 => 0xff01,
        3 => 0x8001,
        _ => 0,
    };
    let boot = if random.one_in(24) { 1 << 22 } else { 0 };
    let kind = match random.below(20) {
        0..=6 => 0,
        7..=11 => 0x10,
        12..=13 => 0x1000_0010,
        14..=15 => 0x02,
        16 => 0x12,
        17 => 0x04,
        18 => 0x14,
        _ => 0x1000_0006,
    };
    interrupts | boot | kind
}

/// Gives a legal page mask, small pages being likelier.
pub fn mask(random: &mut Random) -> u32 {
    if random.one_in(3) {
        random.pick(&MASKS)
    } else {
        random.pick(&MASKS[..3])
    }
}

/// Gives a value for a move to a CP0 register that does not stop.
pub fn cp0(random: &mut Random, register: u32) -> u64 {
    match register {
        number::STATUS => status(random),
        number::PAGE_MASK => mask(random) as u64,
        number::INDEX => match random.below(4) {
            0 => random.next(),
            _ => random.below(52),
        },
        number::WIRED => random.below(64),
        number::COUNT | number::COMPARE => match random.below(3) {
            0 => operand(random),
            _ => random.below(48),
        },
        number::ENTRY_HI => random.below(8) << 26 | random.pick(&SPACES) as u64,
        number::CAUSE => random.below(4) << 8,
        _ => operand(random),
    }
}

/// Gives the low bits C, D, V and G of an entry, mostly writable and valid.
pub fn entry_bits(random: &mut Random) -> u32 {
    match random.below(6) {
        0 => random.word_below(64),
        1 => 2,
        2 => 7,
        _ => 6 | random.word_below(8) << 3,
    }
}

#[cfg(test)]
mod tests {
    use super::*;
    use crate::cp0::move_is_not_built;

    #[test]
    fn cp0_values_are_built() {
        let mut random = Random::new(5, 5);
        for _ in 0..2000 {
            for register in 0..32 {
                let value = cp0(&mut random, register);
                assert!(!move_is_not_built(register, value));
            }
        }
    }

    #[test]
    fn entry_bits_stay_low() {
        let mut random = Random::new(6, 6);
        assert!((0..200).all(|_| entry_bits(&mut random) < 64));
    }
}
