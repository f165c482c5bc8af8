//! Segments at the edges of the file, of memory and of each other.

use super::make::*;
use super::{alone, over, Case};

/// Gives a file whose second segment has some fields changed.
fn second(changes: &[(usize, u32)]) -> Vec<u8> {
    let mut file = super::program().bytes();
    for (at, word) in changes {
        put32(&mut file, header_at(1) + at, *word);
    }
    file
}

/// Gives the cases.
pub fn cases() -> Vec<Case> {
    let mut cases = ends();
    cases.extend(sizes());
    cases.extend(tops());
    cases.extend(overlaps());
    cases.extend(orders());
    cases
}

/// Segments that end with the file, or beyond it.
fn ends() -> Vec<Case> {
    let length = second(&[]).len() as u32;
    [
        ("all", 0, length, length),
        ("all-and-one", 0, length + 1, length + 1),
        ("all-from-one", 1, length, length),
        ("last", length - 1, 1, 1),
        ("after-last", length, 1, 1),
        ("none-at-the-end", length, 0, 1),
        ("none-beyond", length + 1, 0, 1),
        ("none-far", 0xffff_ffff, 0, 1),
        ("wrap-to-0", 0xffff_ffff, 1, 1),
        ("wrap-to-32", 0xffff_fff0, 48, 48),
        ("wrap-of-size", 16, 0xffff_fff0, 0xffff_fff0),
        ("wrap-of-both", 0x8000_0000, 0x8000_0000, 0x8000_0000),
        ("file-header", 0, 52, 52),
    ]
    .map(|(name, offset, filesz, memsz)| {
        let file = second(&[(OFFSET, offset), (FILESZ, filesz), (MEMSZ, memsz)]);
        over(format!("end-{name}"), file)
    })
    .to_vec()
}

/// Segments too large, or with more in the file than in memory.
fn sizes() -> Vec<Case> {
    let mut cases = Vec::new();
    for memsz in [0x20, 0x21, 0xffff, 0x1_0000, 0x1_0001, 0x7fff_ffff, 0x8000_0000, 0xffff_ffff] {
        cases.push(over(format!("tail-{memsz:x}"), second(&[(MEMSZ, memsz)])));
        let tail = Elf::of(vec![load(0x8000_0000, marks(1, 0x190), memsz.max(0x190), ALL)]);
        cases.push(alone(format!("alone-tail-{memsz:x}"), tail.bytes()));
    }
    for (filesz, memsz) in [(1, 0), (0x20, 0x1f), (0x20, 0), (0x1f, 0x1f), (0, 1), (0, 0), (1, 1)] {
        let file = second(&[(FILESZ, filesz), (MEMSZ, memsz)]);
        cases.push(over(format!("sizes-{filesz:x}-{memsz:x}"), file));
    }
    // Whole files of 16 pages, most of them zero.
    for length in [0xffff, 0x1_0000, 0x1_0001] {
        let whole = Elf::of(vec![load(0x8000_0000, sparse(1, length), length, ALL)]);
        cases.push(alone(format!("alone-of-{length:x}-bytes"), whole.bytes()));
    }
    // Each of the refusals 10 to 14 together with the next ones: the first counts.
    let wrongs = [(FILESZ, 0x1_0002), (MEMSZ, 0x1_0001), (VADDR, 0x7fff_f000), (OFFSET, 9)];
    for from in 0..4 {
        cases.push(over(format!("several-wrong-{from}"), second(&wrongs[from..])));
    }
    let (large, low) = (0x1_0001, 0x40_0000);
    for (name, vaddr, filesz, memsz) in [
        ("11-and-12", 0x50_0000, large + 1, large),
        ("11-and-13", 0x7fff_eff0, 0x41, 0x40),
        ("12-and-13", 0x7fff_eff0, large, large),
        ("12-and-14", low, large, large),
        ("13-and-14", 0x7fff_effc, 0x40, 0x40),
    ] {
        let changes = [(OFFSET, 0), (VADDR, vaddr), (FILESZ, filesz), (MEMSZ, memsz)];
        let mut file = second(&changes);
        file.resize(0x1_1000, 0);
        if name == "13-and-14" {
            put32(&mut file, header_at(0) + VADDR, 0x7fff_efc0);
        }
        cases.push(over(format!("wrong-{name}"), file));
    }
    let mut both = second(&[(VADDR, 0x40_003f)]);
    put32(&mut both, header_at(0) + MEMSZ, 0x1_0001);
    cases.push(over("the-first-is-worse", both));
    cases
}

/// Segments at the top of what a program may have, and at the bottom.
fn tops() -> Vec<Case> {
    let mut cases = Vec::new();
    for (vaddr, memsz) in [
        (0, 0x20),
        (1, 0x20),
        (0x7fff_efe0, 0x20),
        (0x7fff_efe1, 0x20),
        (0x7fff_efff, 0x20),
        (0x7fff_efff, 1),
        (0x7fff_f000, 1),
        (0x7fff_e000, 0x1000),
        (0x7fff_e000, 0x1001),
        (0x7fff_f000, 0x1000),
        (0x7fff_ffff, 1),
        (0x7fff_ffff, 2),
        (0x8000_0000, 0x20),
        (0xffff_ffe0, 0x20),
        (0xffff_ffe1, 0x20),
        (0xffff_ffff, 1),
        (0xffff_ffff, 2),
        (0xffff_0000, 0x1_0000),
    ] {
        let filesz = memsz.min(0x20);
        let file = second(&[(VADDR, vaddr), (FILESZ, filesz), (MEMSZ, memsz)]);
        cases.push(over(format!("top-{vaddr:x}-{memsz:x}"), file));
    }
    cases
}

/// Two segments that adjoin, or overlap by a byte, or hold each other.
fn overlaps() -> Vec<Case> {
    let mut cases = Vec::new();
    let at = 0x0040_1000;
    for (name, first, size) in [
        ("apart-below", at - 0x41, 0x40),
        ("adjoin-below", at - 0x40, 0x40),
        ("one-below", at - 0x3f, 0x40),
        ("one-above", at + 0x7f, 0x40),
        ("adjoin-above", at + 0x80, 0x40),
        ("apart-above", at + 0x81, 0x40),
        ("same", at, 0x80),
        ("within", at + 1, 2),
        ("around", at - 1, 0x82),
        ("first-byte", at, 1),
        ("last-byte", at + 0x7f, 1),
        ("before-first", at - 1, 1),
        ("after-last", at + 0x80, 1),
        ("same-begin", at, 0x81),
        ("same-end", at - 1, 0x81),
    ] {
        let one = load(first, marks(1, 1), size, WRITE);
        let other = load(at, marks(2, 0x80), 0x80, CODE);
        let entered = |headers| Elf::of(headers).entered(at).bytes();
        cases.push(over(format!("overlap-{name}"), entered(vec![other.clone(), one.clone()])));
        cases.push(over(format!("overlap-turned-{name}"), entered(vec![one.clone(), other])));
        // The same by physical addresses: one half in each unmapped range.
        let below = load(0x8000_1000, marks(2, 0x80), 0x80, ALL);
        let above = load(0xa000_1000 + first - at, one.bytes.clone(), size, ALL);
        let elf = Elf::of(vec![below, above]);
        cases.push(alone(format!("overlap-physical-{name}"), elf.bytes()));
    }
    // Only the tails meet.
    for size in [0x1000, 0x1001] {
        let parts = vec![
            load(0x0040_0000, marks(1, 4), size, CODE),
            load(0x0040_1000, marks(2, 4), 0x1000, WRITE),
        ];
        cases.push(over(format!("tails-{size:x}"), Elf::of(parts).bytes()));
    }
    // The third overlaps the first, or a header that is no segment does.
    let three = vec![
        load(at, marks(1, 0x80), 0x80, CODE),
        load(at + 0x1000, marks(2, 0x80), 0x80, WRITE),
        load(at + 0x7f, marks(3, 8), 8, WRITE),
    ];
    let mut elf = Elf::of(three);
    cases.push(over("overlap-third", elf.bytes()));
    for kind in [0, NOTE, RTPROC, 2, 6] {
        elf.headers[2].kind = kind;
        cases.push(over(format!("overlap-kind-{kind:x}"), elf.bytes()));
    }
    cases
}

/// Segments that are not in the order of their addresses, and share pages.
fn orders() -> Vec<Case> {
    let parts = [
        load(0x0040_0100, marks(1, 0x40), 0x40, CODE),
        load(0x0040_0040, marks(2, 0x40), 0x50, WRITE),
        load(0x003f_fff0, marks(3, 0x30), 0x50, READ),
        load(0x0040_2ff8, marks(4, 0x1010), 0x1010, READ),
    ];
    let mut cases = Vec::new();
    for order in [[0, 1, 2, 3], [3, 2, 1, 0], [1, 3, 0, 2], [2, 0, 3, 1]] {
        let headers = order.map(|i: usize| parts[i].clone()).to_vec();
        let name = format!("order-{}{}{}{}", order[0], order[1], order[2], order[3]);
        cases.push(over(name, Elf::of(headers).entered(0x0040_0100).bytes()));
    }
    cases
}
