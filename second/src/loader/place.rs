//! Where it goes: pages of RAM and slots of the TLB (L19 to L21, L23, L24).

use super::{Program, Refusal};
use crate::image::RAM_LENGTH;
use crate::machine::Machine;
use crate::tlb::{Slot, SlotValues, SLOTS};

/// The length of a page.
const PAGE: usize = 4096;
/// The pages of RAM.
const PAGES: usize = RAM_LENGTH / PAGE;
/// The page of a User program's stack.
const STACK_PAGE: u64 = 0x7_ffff;
/// The physical addresses of the two vectors.
const VECTORS: [u64; 2] = [0, 0x180];
/// A half of a slot that is valid, and one that may be stored to.
const VALID: u32 = 2;
const DIRTY: u32 = 4;

/// RAM and the slots that are taken, in order.
#[derive(Clone, Debug, PartialEq, Eq)]
pub struct Placed {
    pub ram: Vec<u8>,
    pub slots: Vec<SlotValues>,
}

impl Placed {
    /// Gives the whole TLB, fresh slots after those that are taken.
    pub fn tlb(&self) -> [Slot; SLOTS] {
        let mut tlb = Machine::fresh().tlb;
        for (slot, values) in tlb.iter_mut().zip(&self.slots) {
            *slot = Slot::written(*values);
        }
        tlb
    }
}

/// One page of a User program, in the order of its taking.
struct Page {
    number: u64,
    writable: bool,
}

/// Gives the number of RAM pages that belong to a kernel.
fn kernel_pages(kernel: &Program) -> usize {
    kernel.segments.iter().map(|segment| segment.pages().end).max().unwrap_or(0) as usize
}

/// Gives RAM with a kernel, or a program in Kernel mode, and nothing else (L19).
pub fn kernel_ram(kernel: &Program) -> Vec<u8> {
    let mut ram = vec![0; RAM_LENGTH];
    for (address, byte) in ram.iter_mut().enumerate().take(kernel_pages(kernel) * PAGE) {
        *byte = kernel.stands_at(address as u64);
    }
    ram
}

/// Lists the pages of a User program, each once (L20).
fn pages(program: &Program) -> Vec<Page> {
    let mut pages: Vec<Page> = Vec::new();
    let segments = program.segments.iter().map(|s| (s.pages(), s.writable));
    for (range, writable) in segments.chain([(STACK_PAGE..STACK_PAGE + 1, true)]) {
        for number in range {
            match pages.iter_mut().find(|page| page.number == number) {
                Some(page) => page.writable |= writable,
                None => pages.push(Page { number, writable }),
            }
        }
    }
    pages
}

/// Writes one half of the slot of a page's pair, which is the next slot where there is none yet (L21).
fn map(slots: &mut Vec<SlotValues>, asid: u32, page: &Page, frame: usize) {
    let entry_hi = (page.number >> 1 << 13) as u32 | asid;
    let half = (frame as u32) << 6 | VALID | if page.writable { DIRTY } else { 0 };
    let at = slots.iter().position(|slot| slot.entry_hi == entry_hi).unwrap_or_else(|| {
        slots.push(SlotValues { page_mask: 0, entry_hi, entry_lo0: 0, entry_lo1: 0 });
        slots.len() - 1
    });
    if page.number & 1 == 0 {
        slots[at].entry_lo0 = half;
    } else {
        slots[at].entry_lo1 = half;
    }
}

/// Refuses a kernel without code at a vector (L23).
fn see_vectors(kernel: &Program) -> Result<(), Refusal> {
    for vector in VECTORS {
        if (vector..vector + 4).all(|address| kernel.stands_at(address) == 0) {
            return Err(Refusal { number: 17, file: 0, about: vector as u32 });
        }
    }
    Ok(())
}

/// Places a kernel, which comes first, and User programs over it.
pub fn place(programs: &[Program]) -> Result<Placed, Refusal> {
    see_vectors(&programs[0])?;
    let mut placed = Placed { ram: kernel_ram(&programs[0]), slots: Vec::new() };
    let kernel = kernel_pages(&programs[0]);
    let mut next = kernel;
    for (asid, program) in programs.iter().enumerate().skip(1) {
        for page in pages(program) {
            if next == PAGES {
                return Err(Refusal { number: 18, file: asid, about: kernel as u32 });
            }
            for (offset, byte) in placed.ram[next * PAGE..][..PAGE].iter_mut().enumerate() {
                *byte = program.stands_at(page.number * PAGE as u64 + offset as u64);
            }
            map(&mut placed.slots, asid as u32, &page, next);
            next += 1;
        }
    }
    Ok(placed)
}
