//! Kernels: where they stand, and what stands at their vectors.

use super::make::*;
use super::{alone, beneath, kernel, program, user, Case};

/// Adds a kernel beneath the small program, and the same alone.
fn add(cases: &mut Vec<Case>, name: String, elf: Elf) {
    cases.push(alone(format!("alone-{name}"), elf.bytes()));
    cases.push(beneath(name, elf.bytes()));
}

/// Gives the cases.
pub fn cases() -> Vec<Case> {
    let mut cases = Vec::new();
    for (vaddr, size) in [
        (0x7fff_ffff, 0x10),
        (0x7fff_ffff, 1),
        (0x8000_0001, 0x190),
        (0x8000_0000, 4),
        (0x8000_fe70, 0x190),
        (0x8000_fe71, 0x190),
        (0x8000_ffff, 1),
        (0x8001_0000, 1),
        (0x9fff_ffff, 1),
        (0x9fff_ffff, 2),
        (0x9fff_ff00, 0x190),
        (0xa000_0000, 0x190),
        (0xa000_fe70, 0x190),
        (0xa000_fe71, 0x190),
        (0xbfff_ffff, 1),
        (0xbfff_ffff, 2),
        (0xbfc0_0000, 0x190),
        (0xc000_0000, 0x190),
        (0xffff_ffff, 1),
        (0xffff_ff00, 0x190),
        (0, 0x190),
        (0x0040_0000, 0x190),
    ] {
        let part = load(vaddr, marks(1, size), size, ALL);
        add(&mut cases, format!("kernel-at-{vaddr:x}-{size:x}"), Elf::of(vec![part.clone()]));
        let mut more = kernel();
        more.headers.push(part);
        add(&mut cases, format!("kernel-and-{vaddr:x}-{size:x}"), more);
    }
    cases.extend(vectors());
    cases.extend(pages());
    // Physical addresses of the file's own are not looked at.
    for paddr in [0, 1, 0x1000, 0x8000_0000, 0xffff_ffff] {
        let mut file = kernel().bytes();
        put32(&mut file, header_at(0) + PADDR, paddr);
        cases.push(beneath(format!("kernel-paddr-{paddr:x}"), file));
        let mut file = program().bytes();
        put32(&mut file, header_at(1) + PADDR, paddr);
        cases.push(user(format!("program-paddr-{paddr:x}"), vec![kernel().bytes(), file]));
    }
    // A kernel as a program, and a program as a kernel.
    cases.push(user("two-kernels", vec![kernel().bytes(), kernel().bytes()]));
    cases.push(user("two-programs", vec![program().bytes(), program().bytes()]));
    cases.push(alone("alone-a-program", program().bytes()));
    cases
}

/// Words at the vectors that are zero, or zero but for one byte.
fn vectors() -> Vec<Case> {
    let mut cases = Vec::new();
    for (vector, other) in [(0, 0x180), (0x180, 0)] {
        for kept in 0..5 {
            let mut elf = kernel();
            let bytes = &mut elf.headers[0].bytes;
            for byte in (0..4).filter(|byte| *byte != kept) {
                bytes[vector + byte] = 0;
            }
            add(&mut cases, format!("vector-{vector:x}-keeps-{kept}"), elf.clone());
            elf.headers[0].bytes[other..other + 4].fill(0);
            add(&mut cases, format!("vectors-{vector:x}-keeps-{kept}"), elf);
        }
    }
    for size in [0x17c, 0x180, 0x181, 0x183, 0x184] {
        let part = |bytes| Elf::of(vec![load(0x8000_0000, marks(1, bytes), size, ALL)]);
        add(&mut cases, format!("vector-cut-{size:x}"), part(size));
        add(&mut cases, format!("vector-in-tail-{size:x}"), part(0x17f.min(size)));
    }
    // Each vector in a segment of its own, in either range, and a vector word of two segments.
    for (low, high) in [
        (0x8000_0000, 0x8000_0180),
        (0xa000_0000, 0x8000_0180),
        (0x8000_0000, 0xa000_0180),
        (0x8000_0000, 0x8000_0184),
        (0x8000_0004, 0x8000_0180),
        (0x8000_0003, 0x8000_0183),
        (0x8000_0000, 0x8000_0182),
    ] {
        let parts = [(low, 3), (high, 4)].map(|(at, tag)| load(at, marks(tag, 8), 8, CODE));
        add(&mut cases, format!("vectors-at-{low:x}-{high:x}"), Elf::of(parts.to_vec()));
    }
    cases
}

/// Kernels of many pages, with what is left of RAM for a program of three.
fn pages() -> Vec<Case> {
    let mut cases = Vec::new();
    for size in [
        0xfff, 0x1000, 0x1001, 0x2000, 0xcfff, 0xd000, 0xd001, 0xe000, 0xf000, 0xf001, 0xffff,
        0x1_0000, 0x1_0001,
    ] {
        let elf = Elf::of(vec![load(0x8000_0000, marks(1, 0x190), size, ALL)]);
        add(&mut cases, format!("kernel-of-{size:x}"), elf.clone());
        // The same reach by a far second segment, in the other range.
        let mut far = kernel();
        far.headers.insert(0, load(0xa000_0000 + size - 1, marks(6, 1), 1, ALL));
        add(&mut cases, format!("kernel-up-to-{size:x}"), far.entered(0x8000_0000));
    }
    cases
}
