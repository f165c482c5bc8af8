//! The bytes of RAM and boot ROM that User addresses reach, told by the paper's rule alone.

use std::collections::BTreeSet;

use crate::machine::Machine;
use crate::memory::ROM_START;
use crate::neighbours::covers;
use crate::tlb::Slot;

/// The bytes that are reached or not together: no page and no frame is smaller.
pub const BLOCK: usize = 4096;

const VALID: u32 = 2;
const DIRTY: u32 = 4;

/// Numbers of physical blocks.
#[derive(Debug, PartialEq, Eq)]
pub struct Reached {
    /// Those reached through a valid half.
    pub valid: BTreeSet<u64>,
    /// Those of them reached through one that is dirty as well.
    pub dirty: BTreeSet<u64>,
}

/// Gives the entry that a slot has for an address and the physical block it names.
fn block(slot: &Slot, address: u32) -> (u32, u64) {
    let bit = 12 + slot.mask.count_ones();
    let entry = if address >> bit & 1 == 0 { slot.even } else { slot.odd };
    let inside = (1 << (bit - 12)) - 1;
    (entry, (entry >> 6 & !inside | address >> 12 & inside) as u64)
}

/// Gives what the User addresses of a machine reach in RAM and boot ROM of some lengths.
pub fn reached(machine: &Machine, ram: usize, rom: usize) -> Reached {
    let asid = machine.cp0.entry_hi & 0xff;
    let usable = |slot: &&Slot| slot.page < 1 << 31 && (slot.global || slot.asid == asid);
    let slots: Vec<&Slot> = machine.tlb.iter().filter(usable).collect();
    let rom_start = ROM_START / BLOCK as u64;
    let ram_blocks = 0..ram.div_ceil(BLOCK) as u64;
    let rom_blocks = rom_start..rom_start + rom.div_ceil(BLOCK) as u64;
    let mut reached = Reached { valid: BTreeSet::new(), dirty: BTreeSet::new() };
    for slot in &slots {
        for address in (slot.page..=slot.page | slot.mask | 0x1fff).step_by(BLOCK) {
            let (entry, block) = block(slot, address);
            let present = ram_blocks.contains(&block) || rom_blocks.contains(&block);
            if !present || slots.iter().filter(|slot| covers(slot, address)).count() != 1 {
                continue;
            }
            if entry & VALID != 0 {
                reached.valid.insert(block);
            }
            if entry & (VALID | DIRTY) == VALID | DIRTY {
                reached.dirty.insert(block);
            }
        }
    }
    reached
}

#[test]
fn blocks_are_reached_by_one_usable_valid_half() {
    let written =
        |mask, page, even, odd, asid, global| Slot { mask, page, asid, global, even, odd };
    let mut machine = Machine::fresh();
    machine.cp0.entry_hi = 0x7000_0001;
    machine.tlb[0] = written(0, 0x0040_0000, 1 << 6 | 6, 2 << 6 | 2, 1, false);
    machine.tlb[1] = written(0x6000, 0x0080_0000, 7 << 6 | 6, 0x1fc00 << 6 | 6, 9, true);
    machine.tlb[2] = written(0, 0x00c0_0000, 9 << 6 | 6, 10 << 6 | 4, 2, false);
    machine.tlb[3] = written(0, 0x0100_0000, 11 << 6 | 6, 12 << 6 | 4, 1, false);
    machine.tlb[4] = written(0, 0x8000_0000, 13 << 6 | 6, 13 << 6 | 6, 1, false);
    machine.tlb[5] = written(0, 0x0140_0000, 14 << 6 | 6, 14 << 6 | 6, 1, false);
    machine.tlb[6] = written(0x1_e000, 0x0140_0000, 0, 0, 7, true);
    let found = reached(&machine, 0x1_0000, 0x1800);
    assert_eq!(found.valid, BTreeSet::from([1, 2, 4, 5, 6, 7, 11, 0x1fc00, 0x1fc01]));
    assert_eq!(found.dirty, BTreeSet::from([1, 4, 5, 6, 7, 11, 0x1fc00, 0x1fc01]));
}
