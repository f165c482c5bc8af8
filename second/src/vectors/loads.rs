//! Loads and stores at every offset, aligned or not.

use super::common::{frame, skipping, OTHER, PATTERN, SKIP_STEPS};
use crate::assemble::*;
use crate::draft::{Draft, RAM_HIGH};
use crate::many::Image;

/// Loads that need an aligned address, by name and opcode.
const LOADS: [(&str, u32); 9] = [
    ("lb", 0x20),
    ("lbu", 0x24),
    ("lh", 0x21),
    ("lhu", 0x25),
    ("lw", 0x23),
    ("lwu", 0x27),
    ("ld", 0x37),
    ("ll", 0x30),
    ("lld", 0x34),
];

/// Stores that need an aligned address, by name and opcode.
const STORES: [(&str, u32); 6] =
    [("sb", 0x28), ("sh", 0x29), ("sw", 0x2b), ("sd", 0x3f), ("sc", 0x38), ("scd", 0x3c)];

/// Loads of a part, by name and opcode.
const PART_LOADS: [(&str, u32); 4] = [("lwl", 0x22), ("lwr", 0x26), ("ldl", 0x1a), ("ldr", 0x1b)];

/// Stores of a part, by name and opcode.
const PART_STORES: [(&str, u32); 4] = [("swl", 0x2a), ("swr", 0x2e), ("sdl", 0x2c), ("sdr", 0x2d)];

/// The physical address of the data.
const DATA: u32 = 0x4000;

/// Starts a draft with two doublewords of data under r10, also mapped under r11.
fn with_data(name: String) -> Draft {
    skipping(Draft::kernel(name))
        .slot(0, [0, 0x0040_0000, frame(DATA, 6), 0])
        .data(DATA, PATTERN)
        .data(DATA + 8, OTHER)
        .reg(10, RAM_HIGH + DATA as u64)
        .reg(11, 0x0040_0000)
}

/// Drafts a load at all sixteen offsets of the data, unaligned ones skipped by the handler.
fn load_everywhere(name: &str, opcode: u32) -> Image {
    let code: Vec<u32> = (0..8)
        .map(|offset| access(opcode, 1 + offset, offset, 10))
        .chain((8..16).map(|offset| access(opcode, 6 + offset, offset, 11)))
        .collect();
    with_data(format!("{name}-every-offset")).code(&code).budget(16 + 16 * SKIP_STEPS).image()
}

/// Drafts a store at eight places with eight offsets, unaligned ones skipped by the handler.
fn store_everywhere(name: &str, opcode: u32) -> Image {
    let mut code = vec![access(0x30, 2, 0, 10)];
    for offset in 0..8 {
        code.extend([
            copy(2, 1),
            access(opcode, 2, 16 * offset + offset, 10),
            copy(12 + offset, 2),
        ]);
    }
    with_data(format!("{name}-every-offset"))
        .reg(1, 0xf1e2_d3c4_b5a6_9788)
        .code(&code)
        .budget(25 + 8 * SKIP_STEPS)
        .image()
}

/// Drafts a load of a part at one offset into registers with different old values.
/// The last goes to r0, which is shown in r5.
fn part_load(name: &str, opcode: u32, offset: u32) -> Image {
    let code = [
        access(opcode, 1, offset, 10),
        access(opcode, 2, offset, 10),
        access(opcode, 3, offset + 8, 10),
        access(opcode, 4, offset + 8, 11),
        access(opcode, 0, offset, 10),
        copy(5, 0),
    ];
    with_data(format!("{name}-offset-{offset}"))
        .reg(1, 0xaabb_ccdd)
        .reg(2, 0x0102_0304_0506_0708)
        .reg(3, u64::MAX)
        .reg(5, OTHER)
        .code(&code)
        .image()
}

/// Drafts a store of a part at one offset.
fn part_store(name: &str, opcode: u32, offset: u32) -> Image {
    let code = [access(opcode, 1, offset, 10), access(opcode, 2, offset + 8, 11)];
    with_data(format!("{name}-offset-{offset}"))
        .reg(1, 0x0102_0304_0506_0708)
        .reg(2, 0xf1f2_f3f4_f5f6_f7f8)
        .code(&code)
        .image()
}

/// Drafts the pairs that load and store across a boundary, as compilers use them.
fn pairs() -> Vec<Image> {
    (0..8)
        .map(|offset| {
            let code = [
                access(0x22, 1, offset, 10),
                access(0x26, 1, offset + 3, 10),
                access(0x1a, 2, offset, 10),
                access(0x1b, 2, offset + 7, 10),
                access(0x2a, 1, offset + 0x20, 10),
                access(0x2e, 1, offset + 0x23, 10),
                access(0x2c, 2, offset + 0x40, 10),
                access(0x2d, 2, offset + 0x47, 10),
            ];
            with_data(format!("unaligned-pairs-offset-{offset}")).code(&code).image()
        })
        .collect()
}

/// Drafts loads whose effective address wraps, widens or leaves RAM.
fn addresses() -> Vec<Image> {
    let cases: [(&str, u64, u32); 12] = [
        ("wraps-to-low", u64::MAX, 0x4001),
        ("wraps-to-high", 0, 0x8000),
        ("wide-positive", 0x8000_0000, 0),
        ("wide-negative", 0xffff_ffff_7fff_fff0, 0x8),
        ("wide-sum", 0x7fff_fff0, 0x10),
        ("wide-base-narrow-sum", 0xffff_ffff_7fff_fff8, 0x4008),
        ("last-of-ram", RAM_HIGH + 0xfff8, 0),
        ("past-ram", RAM_HIGH + 0xfff8, 8),
        ("rom-without-rom", 0xffff_ffff_bfc0_0000, 0),
        ("end-of-kseg1", 0xffff_ffff_bfff_fff8, 0),
        ("start-of-kseg2", 0xffff_ffff_bfff_fff8, 8),
        ("end-of-kuseg", 0x7fff_fff8, 0),
    ];
    let mut images = Vec::new();
    for (name, base, offset) in cases {
        for (kind, opcode) in [("ld", 0x37), ("sd", 0x3f), ("lwl", 0x22), ("sdr", 0x2d)] {
            images.push(
                with_data(format!("address-{name}-{kind}"))
                    .data(0xfff8, PATTERN)
                    .reg(1, base)
                    .reg(2, OTHER)
                    .code(&[access(opcode, 2, offset, 1)])
                    .image(),
            );
        }
    }
    images
}

/// Drafts loads through every Kernel segment and under the error level.
fn segments() -> Vec<Image> {
    let mut images = Vec::new();
    for (name, status) in
        [("normal", 0u64), ("exl", 2), ("erl", 4), ("user-exl", 0x12), ("user-erl", 0x14)]
    {
        for (kind, base) in [
            ("kuseg", 0x0000_4000u64),
            ("kuseg-high", 0x7fff_e000),
            ("kseg0", RAM_HIGH + 0x4000),
            ("kseg1", 0xffff_ffff_a000_4000),
            ("kseg2", 0xffff_ffff_c000_0000),
            ("kseg3", 0xffff_ffff_e000_0000),
            ("ksseg", 0xffff_ffff_dfff_e000),
        ] {
            let code = [lw(1, 0, 10), sw(2, 4, 10), lw(3, 4, 10)];
            images.push(
                skipping(Draft::kernel(format!("segment-{kind}-{name}")))
                    .cp0(12, status)
                    .slot(0, [0, 0xc000_0000, frame(0x5000, 6), 0])
                    .slot(1, [0, 0x7fff_e000, frame(0x6000, 6), 0])
                    .slot(2, [0, 0x0000_4000, frame(0x7000, 6), 0])
                    .data(0x4000, PATTERN)
                    .data(0x5000, OTHER)
                    .data(0x6000, !PATTERN)
                    .data(0x7000, !OTHER)
                    .reg(2, 0x5555)
                    .reg(10, base)
                    .code(&code)
                    .image(),
            );
        }
    }
    images
}

/// Gives all images of this subject.
pub fn images() -> Vec<Image> {
    let mut images = Vec::new();
    for (name, opcode) in LOADS {
        images.push(load_everywhere(name, opcode));
    }
    for (name, opcode) in STORES {
        images.push(store_everywhere(name, opcode));
    }
    for offset in 0..8 {
        for (name, opcode) in PART_LOADS {
            images.push(part_load(name, opcode, offset));
        }
        for (name, opcode) in PART_STORES {
            images.push(part_store(name, opcode, offset));
        }
    }
    images.extend(pairs());
    images.extend(addresses());
    images.extend(segments());
    images
}

#[cfg(test)]
mod tests {
    use super::*;
    use crate::answer::whole_answer;

    #[test]
    fn pairs_move_whole_words_and_doublewords() {
        let image = pairs().remove(3);
        let answer = whole_answer(&image.text, 0, &[]);
        assert!(answer.contains("\n0101ffffffffb4c5d6e7\n"));
        assert!(answer.contains("\n0102b4c5d6e7f8112233\n"));
    }

    #[test]
    fn aligned_loads_raise_nothing() {
        let image = images().remove(0);
        assert!(whole_answer(&image.text, 0, &[]).contains("\n01170000000000000000\n"));
    }
}
