//! The slots of a neighbour, and the accesses of a User program that only the ASID keeps from them.

use std::collections::BTreeSet;

use crate::access::{effective, load_alignment, store_alignment};
use crate::address::{Use, VAddr};
use crate::assemble::{lw, sw};
use crate::cp0::number;
use crate::draft::{Draft, CODE};
use crate::image::{read, RAM_LENGTH};
use crate::instruction::Instruction as I;
use crate::machine::Machine;
use crate::many::Image;
use crate::memory::Memory;
use crate::step::{due, step};
use crate::tlb::Slot;

/// Tells whether a slot is not global and holds an ASID other than the current one.
pub fn is_neighbours(slot: &Slot, asid: u32) -> bool {
    !slot.global && slot.asid != asid
}

/// Tells whether the unmasked page bits of a slot agree with an address, whoever the slot belongs to.
pub fn covers(slot: &Slot, address: u32) -> bool {
    address & !(slot.mask | 0x1fff) == slot.page
}

/// Gives a User address that is looked up if it is aligned and in range.
fn looked_up(address: VAddr, alignment: u64) -> Option<u32> {
    (address.0 < 1 << 31 && address.0 & (alignment - 1) == 0).then_some(address.0 as u32)
}

/// Gives the addresses that the next step of a User program looks up, each with its use.
pub fn look_ups(machine: &Machine, memory: &Memory, lines: u32) -> Vec<(Use, u32)> {
    let mut found = Vec::new();
    if machine.cp0.is_kernel() || machine.cp0.interrupt_is_due(lines) {
        return found;
    }
    found.extend(looked_up(VAddr(machine.pc), 4).map(|address| (Use::Fetch, address)));
    if let Ok((code, instruction)) = due(machine, memory, lines) {
        let data = match instruction {
            I::Load(load) => Some((Use::Load, load_alignment(load))),
            I::Store(store) => Some((Use::Store, store_alignment(store))),
            _ => None,
        };
        found.extend(data.and_then(|(purpose, alignment)| {
            let address = looked_up(effective(machine, code), alignment)?;
            Some((purpose, address))
        }));
    }
    found
}

/// Gives the uses of the next step at addresses that a neighbour's slot covers.
pub fn meetings(machine: &Machine, memory: &Memory, lines: u32) -> Vec<Use> {
    let asid = machine.cp0.asid();
    let met =
        |address| machine.tlb.iter().any(|slot| is_neighbours(slot, asid) && covers(slot, address));
    let mut found = look_ups(machine, memory, lines);
    found.retain(|(_, address)| met(*address));
    found.into_iter().map(|(purpose, _)| purpose).collect()
}

/// Gives the uses, over the run of an image without a boot ROM, that a neighbour's slot covers.
pub fn met(image: &Image) -> BTreeSet<Use> {
    let mut found = BTreeSet::new();
    let mut ram = vec![0; RAM_LENGTH];
    if let Ok(mut start) = read(&image.text, &mut ram) {
        let mut memory = Memory { ram: &mut ram, rom: &[] };
        for _ in 0..start.budget {
            found.extend(meetings(&start.machine, &memory, image.lines));
            if step(&mut start.machine, &mut memory, image.lines).is_err() {
                break;
            }
        }
    }
    found
}

#[test]
fn only_user_addresses_under_another_asid_are_counted() {
    let met_by = |word: u32, slot: [u32; 4]| {
        let draft = Draft::fresh("d").cp0(number::STATUS, 0x10).pc(0x0040_0000).code(&[word]);
        let draft = draft.slot(8, [0, 0x0040_0000, CODE >> 6 | 2, 0]).slot(9, slot);
        met(&draft.reg(10, 0x0040_2000).reg(11, 0x8000_0000).image())
    };
    let there = [0, 0x0040_2005, 0, 1];
    assert_eq!(met_by(lw(1, 4, 10), there), BTreeSet::from([Use::Load]));
    assert_eq!(met_by(sw(1, 4, 10), there), BTreeSet::from([Use::Store]));
    let large = [0x1ff_e000, 5, 0, 0];
    assert_eq!(met_by(sw(1, 4, 10), large), BTreeSet::from([Use::Fetch, Use::Store]));
    let others = [
        (lw(1, 2, 10), there),
        (lw(1, 0x2000, 10), there),
        (lw(1, 0, 11), [0, 0x8000_0005, 0, 0]),
        (lw(1, 4, 10), [0, 0x0040_2000, 0, 0]),
        (lw(1, 4, 10), [0, 0x0040_2005, 1, 1]),
    ];
    assert!(others.into_iter().all(|(word, slot)| met_by(word, slot).is_empty()));
}
