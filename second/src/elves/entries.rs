//! The entry point at every edge.

use super::make::*;
use super::{alone, beneath, kernel, over, program, user, Case};

/// Entry points that no small file has in a segment, and some that it has.
const FAR: [u32; 14] = [
    0,
    1,
    4,
    0x1000,
    0x7fff_effc,
    0x7fff_f000,
    0x7fff_fffc,
    0x7fff_ffff,
    0x8000_0000,
    0x8000_0004,
    0xa000_0000,
    0xbfc0_0000,
    0xc000_0000,
    0xffff_fffc,
];

/// Gives entry points around a segment: below it, at its ends and beyond, multiples of 4 or not.
fn around(vaddr: u32, memsz: u32) -> Vec<u32> {
    let mut all: Vec<u32> = (0..6).map(|more| vaddr + more).collect();
    all.extend([vaddr - 4, vaddr - 1]);
    all.extend((0..10).map(|less| vaddr + memsz + 4 - less));
    all
}

/// Gives the far entry points and those around segments, each once.
fn points(segments: [(u32, u32); 2]) -> Vec<u32> {
    let mut points = FAR.to_vec();
    for (vaddr, memsz) in segments {
        points.extend(around(vaddr, memsz));
    }
    points.sort_unstable();
    points.dedup();
    points
}

/// Gives the cases.
pub fn cases() -> Vec<Case> {
    let mut cases = Vec::new();
    // The last word that the file has of the second segment, and the first of its tail, are added.
    let tail = [0x0041_002c, 0x0041_0030];
    for entry in points([(0x0040_0000, 0x40), (0x0041_0010, 0x60)]).into_iter().chain(tail) {
        cases.push(over(format!("entry-{entry:x}"), program().entered(entry).bytes()));
        let mut files = vec![kernel().bytes(), program().bytes(), program().bytes()];
        files[2] = program().entered(entry).bytes();
        cases.push(user(format!("entry-of-2-{entry:x}"), files));
    }
    for entry in points([(0x8000_0000, 0x190), (0xa000_0000, 0x190)]) {
        cases.push(alone(format!("alone-entry-{entry:x}"), kernel().entered(entry).bytes()));
        cases.push(beneath(format!("kernel-entry-{entry:x}"), kernel().entered(entry).bytes()));
    }
    // A kernel that is linked at a0000000 begins there.
    let uncached = Elf::of(vec![load(0xa000_0000, marks(1, 0x190), 0x190, ALL)]);
    for entry in around(0xa000_0000, 0x190).into_iter().chain([0x8000_0000]) {
        let file = uncached.clone().entered(entry).bytes();
        cases.push(alone(format!("uncached-entry-{entry:x}"), file));
    }
    // Segments of one to five bytes, which hold a multiple of 4 or not.
    for vaddr in 0x40_0000..0x40_0004 {
        for size in 1..6 {
            let elf = Elf::of(vec![load(vaddr, marks(1, size), size, CODE)]);
            let file = elf.entered(0x40_0004).bytes();
            cases.push(over(format!("entry-in-{vaddr:x}-{size}"), file));
        }
    }
    cases
}
