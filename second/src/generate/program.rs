//! Random machines with a program to run.

use super::instructions::{
    program, CODE_POINTERS, EXTREMES, MASK_REGISTER, POINTERS, STATUS_REGISTER, ZERO_REGISTER,
};
use super::random::Random;
use super::values;
use crate::assemble::*;
use crate::cp0::number;
use crate::draft::{Draft, CODE, RAM_HIGH};
use crate::tlb::SLOTS;

/// Where the program runs: its first address and the mapped page it needs, if any.
struct Place {
    start: u64,
    /// PageMask, page number in place, and the entry of the half that holds the code.
    page: Option<(u32, u32, bool)>,
}

/// A page pair in the TLB that pointers may use.
struct Pair {
    base: u64,
    mask: u32,
    /// The frames of the even and the odd half.
    frames: [u32; 2],
}

/// Gives the physical addresses of three runs of doublewords that hold data.
fn hot_addresses(random: &mut Random) -> Vec<u32> {
    let mut addresses = Vec::new();
    for _ in 0..3 {
        let page = (2 + random.word_below(14)) << 12;
        let inside = match random.below(3) {
            0 => 0,
            1 => 0xfc0,
            _ => random.word_below(0xfc0) & !7,
        };
        addresses.extend((0..8).map(|place| page + inside + 8 * place));
    }
    addresses
}

/// Gives the bytes of one page under a mask.
fn page_bytes(mask: u32) -> u64 {
    ((mask | 0x1fff) as u64 + 1) / 2
}

/// Sign-extends a 32-bit address.
fn extend(address: u64) -> u64 {
    address as u32 as i32 as i64 as u64
}

/// Chooses where the program runs.
fn place(random: &mut Random, user: bool) -> Place {
    let choice = if user && !random.one_in(12) { 4 } else { random.below(8) };
    match choice {
        0..=2 => Place { start: RAM_HIGH + CODE as u64, page: None },
        3 => Place { start: 0xffff_ffff_a000_0000 + CODE as u64, page: None },
        _ => {
            let mask = values::mask(random);
            let base: u64 = if user || random.one_in(2) { 0x0400_0000 } else { 0xc400_0000 };
            let odd = random.one_in(2);
            let bytes = page_bytes(mask);
            // A small page holds the code's frame; a larger one holds it at its own offset.
            let inside = if mask == 0 { 0 } else { CODE as u64 };
            let start = extend(base + if odd { bytes } else { 0 } + inside);
            Place { start, page: Some((mask, base as u32, odd)) }
        }
    }
}

/// Adds the slot that maps the program.
fn map_program(random: &mut Random, draft: Draft, place: &Place, space: u32) -> Draft {
    let Some((mask, base, odd)) = place.page else {
        return draft;
    };
    let frame = if mask == 0 { CODE >> 12 } else { 0 };
    let code = frame << 6 | if random.one_in(3) { 6 } else { 2 };
    let other = random.word_below(16) << 6 | values::entry_bits(random) & !1;
    let (even, odd) = if odd { (other, code) } else { (code, other) };
    draft.slot(random.word_below(8), [mask, base | space, even, odd])
}

/// Adds at times a slot over the program's page that belongs to another address space.
fn map_neighbour(random: &mut Random, draft: Draft, place: &Place, space: u32) -> Draft {
    let Some((mask, base, _)) = place.page.filter(|_| random.one_in(3)) else {
        return draft;
    };
    let larger = random.pick(&values::MASKS).max(mask);
    let other = base | space ^ 1 << random.below(8);
    let [even, odd] = [0, 1].map(|_| random.word_below(16) << 6 | values::entry_bits(random));
    draft.slot(random.word_below(SLOTS as u32), [larger, other, even, odd & !1])
}

/// Adds page pairs of data at bases that do not overlap, some in several address spaces.
fn map_data(
    random: &mut Random,
    mut draft: Draft,
    space: u32,
    user: bool,
    hot: &[u32],
) -> (Draft, Vec<Pair>) {
    let mut pairs = Vec::new();
    let mut slot = 8;
    for number in 0..3 + random.below(4) {
        let high = random.one_in(if user { 16 } else { 3 });
        let region = if high { 0xc800_0000 } else { 0x0800_0000 };
        let base: u64 = region + (number << 26);
        let mask = values::mask(random);
        for copy in 0..1 + random.below(2) {
            let frames = [0, 1].map(|_| match random.below(12) {
                0 => random.word_below(1 << 24),
                1 => random.word_below(16),
                _ => random.pick(hot) >> 12,
            });
            let lows = frames.map(|frame| frame << 6 | values::entry_bits(random));
            pairs.push(Pair { base, mask, frames });
            let other = random.pick(&values::SPACES);
            let asid = match copy {
                0 if !random.one_in(6) => space,
                0 => other,
                _ if other == space && !random.one_in(8) => space ^ 0x10,
                _ => other,
            };
            let page = base as u32 | if random.one_in(4) { mask } else { 0 };
            draft = draft.slot(slot, [mask, page | asid, lows[0], lows[1]]);
            slot += 1 + random.word_below(3);
        }
    }
    (draft, pairs)
}

/// Gives an address inside a pair that leads to data, if the pair has one.
fn address_in(random: &mut Random, pair: &Pair, hot: &[u32]) -> u64 {
    let bytes = page_bytes(pair.mask);
    let half = random.below(2);
    let window = ((pair.frames[half as usize] as u64) << 12) & !(bytes - 1);
    let mut offset = match random.below(6) {
        0 => bytes - 8,
        _ => random.below(bytes.min(0x1_0000)) & !7,
    };
    for _ in 0..6 {
        let physical = random.pick(hot) as u64;
        if (window..window + bytes).contains(&physical) {
            offset = physical - window;
        }
    }
    extend(pair.base + half * bytes + offset)
}

/// Gives a pointer to data, mostly into a mapped pair or unmapped RAM.
fn pointer(random: &mut Random, pairs: &[Pair], user: bool, hot: &[u32]) -> u64 {
    let unaligned = if random.one_in(10) { random.below(8) } else { 0 };
    let choice = random.below(12);
    let address = match choice {
        0..=9 if user || choice <= 6 => {
            let place = random.below(pairs.len() as u64) as usize;
            address_in(random, &pairs[place], hot)
        }
        7..=9 => {
            let segment = random.pick(&[0xffff_ffff_8000_0000, 0xffff_ffff_a000_0000]);
            segment + random.pick(hot) as u64
        }
        10 => random.pick(&[
            0xffff_ffff_8000_fff8,
            0xffff_ffff_bfc0_0000,
            0xffff_ffff_a001_0000,
            0x7fff_fff8,
            0x8000_0000,
            0xffff_ffff_ffff_fff8,
            0x2000,
        ]),
        _ => values::operand(random) & !7,
    };
    address.wrapping_add(unaligned)
}

/// Gives a handler for one of the vectors.
fn handler(random: &mut Random) -> Vec<u32> {
    match random.below(12) {
        0 => vec![ERET],
        1 => vec![],
        2 => program(random, 0x60, 8),
        3 | 4 => vec![mtc0(30, 2), mtc0(29, 3), TLBWR, ERET],
        5..=7 => vec![mfc0(28, 14), addiu(28, 28, 4), mtc0(28, 14), ERET],
        _ => vec![dmtc0(random.pick(&CODE_POINTERS), 14), ERET],
    }
}

/// Adds random CP0 registers; Count and Compare often meet during the run.
fn with_cp0(random: &mut Random, mut draft: Draft, status: u64, space: u32) -> Draft {
    for register in (0..31).filter(|register| crate::cp0::is_kept(*register)) {
        if random.one_in(3) {
            draft = draft.cp0(register, values::cp0(random, register));
        }
    }
    if random.one_in(2) {
        let count = random.next() & 0xffff_ffff;
        let soon = count.wrapping_add(random.below(24)) & 0xffff_ffff;
        draft = draft.cp0(number::COUNT, count).cp0(number::COMPARE, soon);
    }
    let page = (random.next() & 0xffff_e000) as u32;
    draft.cp0(number::ENTRY_HI, (page | space) as u64).cp0(number::STATUS, status)
}

/// Drafts a random machine with a program and a budget of 1 to 64 steps.
pub fn draft(random: &mut Random) -> Draft {
    let status = values::status(random);
    draft_with(random, status)
}

/// Drafts the same from a Status value.
pub fn draft_with(random: &mut Random, status: u64) -> Draft {
    let user = status & 0x16 == 0x10;
    let space = random.pick(&values::SPACES);
    let place = place(random, user);
    let mut draft = with_cp0(random, Draft::fresh("random"), status, space);
    if random.one_in(3) {
        draft = draft.cp0(number::EPC, place.start + 4 * random.below(24));
        draft = draft.cp0(number::ERROR_EPC, place.start + 4 * random.below(24));
    }
    draft = map_neighbour(random, draft, &place, space);
    draft = map_program(random, draft, &place, space);
    let hot = hot_addresses(random);
    let (mut draft, pairs) = map_data(random, draft, space, user, &hot);
    if random.one_in(16) {
        let twin = pairs[0].base as u32 | space;
        draft = draft.slot(40 + random.word_below(8), [pairs[0].mask, twin, 6, 6]);
    }
    for register in 1..32 {
        draft = draft.reg(register, values::operand(random));
    }
    for register in POINTERS {
        draft = draft.reg(register, pointer(random, &pairs, user, &hot));
    }
    for register in CODE_POINTERS {
        draft = draft.reg(register, place.start + 4 * random.below(32));
    }
    draft = draft
        .reg(EXTREMES[0], random.pick(&[0x7fff_ffff, i64::MAX as u64]))
        .reg(EXTREMES[1], random.pick(&[0xffff_ffff_8000_0000, 1 << 63]))
        .reg(STATUS_REGISTER, values::status(random))
        .reg(MASK_REGISTER, values::mask(random) as u64)
        .reg(ZERO_REGISTER, random.pick(&[0, 1 << 32, 1 << 63, 0xffff_ffff_0000_0000]))
        .reg(29, (random.below(16) << 6 | 6 | random.below(2)) as u64)
        .reg(30, (random.below(16) << 6 | 6 | random.below(2)) as u64)
        .reg(0x20, values::operand(random))
        .reg(0x21, values::operand(random));
    for address in hot {
        let value = if random.one_in(2) { random.next() } else { values::operand(random) };
        draft = draft.data(address, value);
    }
    let index = (place.start as u32) >> 2 & 0x03ff_ffff;
    let words = program(random, index, 40);
    draft = draft.words(CODE, &words).words(0, &handler(random)).words(0x180, &handler(random));
    let start = if random.one_in(40) { values::operand(random) } else { place.start };
    draft.pc(start).budget(1 + random.word_below(64))
}

#[cfg(test)]
mod tests {
    use super::*;
    use crate::image::{read, RAM_LENGTH};

    #[test]
    fn drafts_are_accepted_images() {
        for number in 0..500 {
            let text = draft(&mut Random::new(4, number)).text();
            let mut ram = vec![0; RAM_LENGTH];
            let start = read(text.as_bytes(), &mut ram).unwrap();
            assert!(start.machine.in_range());
            assert!((1..=64).contains(&start.budget));
        }
    }
}
