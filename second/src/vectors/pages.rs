//! All page sizes, both halves, address spaces and the bits of an entry.

use super::common::{frame, skipping, OTHER, PATTERN, SKIP_STEPS};
use crate::assemble::*;
use crate::cp0::number;
use crate::draft::{Draft, RAM_HIGH};
use crate::many::Image;

/// The name of each page size and its mask.
const SIZES: [(&str, u32); 7] = [
    ("4k", 0),
    ("16k", 0x6000),
    ("64k", 0x1_e000),
    ("256k", 0x7_e000),
    ("1m", 0x1f_e000),
    ("4m", 0x7f_e000),
    ("16m", 0x1ff_e000),
];

/// Gives the bytes of a page under a mask.
fn page_bytes(mask: u32) -> u64 {
    ((mask | 0x1fff) as u64 + 1) / 2
}

/// Drafts loads and stores at the start, inside and at the end of one half of a pair.
fn half(size: &str, mask: u32, odd: bool, base: u64, low_frame_bits: u32) -> Image {
    let bytes = page_bytes(mask);
    let page = base + if odd { bytes } else { 0 };
    // Every page this large or larger holds RAM from its start; low frame bits are ignored.
    let entry = 0x06 | (low_frame_bits & (bytes as u32 / 4096 - 1)) << 6;
    let (even_entry, odd_entry) = if odd { (0x3fff_ffc6, entry) } else { (entry, 0x3fff_ffc6) };
    let name = format!(
        "page-{size}-{}-{}{}",
        if odd { "odd" } else { "even" },
        if base >> 31 == 0 { "kuseg" } else { "kseg2" },
        if low_frame_bits == 0 { "" } else { "-low-frame-bits" }
    );
    let code = [
        ld(1, 0xf00, 10),
        sd(2, 0xf08, 10),
        access(0x34, 3, 0xff8, 10),
        access(0x24, 4, 0xfff, 10),
        lw(5, 0xfffc, 10),
        lw(6, 0, 11),
        sw(7, 0xfffc, 11),
        lw(8, 0, 12),
        sw(9, 0xfffc, 12),
        dmfc0(13, number::BAD_VADDR),
    ];
    let extend = |address: u64| address as u32 as i32 as i64 as u64;
    skipping(Draft::kernel(name))
        .cp0(number::ENTRY_HI, 0x5a)
        .slot(7, [mask, base as u32 | 0x5a, even_entry, odd_entry])
        .data(0xf00, PATTERN)
        .data(0xff8, OTHER)
        .reg(2, 0x0123_4567_89ab_cdef)
        .reg(10, extend(page))
        .reg(11, extend(base + bytes))
        .reg(12, extend(base + 2 * bytes))
        .code(&code)
        .budget(code.len() as u32 + 6 * SKIP_STEPS)
        .image()
}

/// Drafts a program that runs in one half of a page pair.
fn fetch(size: &str, mask: u32, odd: bool) -> Image {
    let bytes = page_bytes(mask);
    let base = 0x0600_0000;
    let page = base + if odd { bytes } else { 0 };
    let (even_entry, odd_entry) = if odd { (0, 2) } else { (2, 0) };
    skipping(Draft::kernel(format!("fetch-page-{size}-{}", if odd { "odd" } else { "even" })))
        .slot(20, [mask, base as u32, even_entry, odd_entry])
        .pc(page + 0xff4)
        .words(0xff4, &[ori(1, 0, 1), ori(2, 0, 2), ori(3, 0, 3), ori(4, 0, 4)])
        .budget(5)
        .image()
}

/// Drafts accesses under every combination of V, D, G and equal or different ASID.
fn bits() -> Vec<Image> {
    let mut images = Vec::new();
    for combination in 0..16u32 {
        let (valid, dirty, global, same) = (
            combination & 1 != 0,
            combination & 2 != 0,
            combination & 4 != 0,
            combination & 8 != 0,
        );
        let entry = frame(0x4000, (dirty as u32) << 2 | (valid as u32) << 1 | global as u32);
        let asid = if same { 0x5a } else { 0x5b };
        let name = format!(
            "entry{}{}{}{}",
            if valid { "-v" } else { "" },
            if dirty { "-d" } else { "" },
            if global { "-g" } else { "" },
            if same { "-same-asid" } else { "-other-asid" }
        );
        let code = [lw(1, 0, 10), sw(2, 4, 10), lw(3, 0x1000, 10), mfc0(4, number::ENTRY_HI)];
        images.push(
            skipping(Draft::kernel(name))
                .cp0(number::ENTRY_HI, 0x5a)
                .slot(47, [0, 0x0040_0000 | asid, entry, frame(0x5000, 6) | global as u32])
                .data(0x4000, PATTERN)
                .data(0x5000, OTHER)
                .reg(2, 0x77)
                .reg(10, 0x0040_0000)
                .code(&code)
                .budget(4 + 3 * SKIP_STEPS)
                .image(),
        );
    }
    images
}

/// Drafts pages that differ in one G bit, in attributes, or that lie past RAM.
fn singles() -> Vec<Image> {
    let code = [lw(1, 0, 10), sw(2, 4, 10), lw(3, 0x1000, 10)];
    let cases: [(&str, [u32; 4]); 9] = [
        ("only-g0", [0, 0x0040_0001, frame(0x4000, 7), frame(0x5000, 6)]),
        ("only-g1", [0, 0x0040_0001, frame(0x4000, 6), frame(0x5000, 7)]),
        ("both-g", [0, 0x0040_0001, frame(0x4000, 7), frame(0x5000, 7)]),
        ("attributes", [0, 0x0040_0000, frame(0x4000, 0x3e), frame(0x5000, 0x16)]),
        ("frame-past-ram", [0, 0x0040_0000, frame(0x1_0000, 6), frame(0x1_f000, 6)]),
        ("frame-above-32-bits", [0, 0x0040_0000, 0x0400_0006 | 4 << 6, 0x0400_0006]),
        ("frame-highest", [0, 0x0040_0000, 0x3fff_ffc6, 0x3fff_ffc6]),
        ("entry-high-bits-dropped", [0, 0x0040_1f00, 0xc000_0006 | 4 << 6, 0xc000_0006 | 5 << 6]),
        ("page-under-mask-cleared", [0x6000, 0x0040_6000, frame(0x4000, 6), frame(0x4000, 6)]),
    ];
    cases
        .into_iter()
        .map(|(name, values)| {
            skipping(Draft::kernel(format!("page-{name}")))
                .slot(3, values)
                .data(0x4000, PATTERN)
                .data(0x5000, OTHER)
                .reg(2, 0x77)
                .reg(10, 0x0040_0000)
                .code(&code)
                .budget(3 + 3 * SKIP_STEPS)
                .image()
        })
        .collect()
}

/// Drafts programs that change a translation and use it at once.
fn changes() -> Vec<Image> {
    let rewrite = [lw(1, 0, 10), mtc0(20, number::ENTRY_LO0), TLBWI, lw(2, 0, 10), sw(21, 4, 10)];
    let change_asid = [
        lw(1, 0, 10),
        mtc0(20, number::ENTRY_HI),
        lw(2, 0, 10),
        mtc0(21, number::ENTRY_HI),
        lw(3, 0, 10),
    ];
    let base = |name: &str| {
        skipping(Draft::kernel(name)).data(0x4000, PATTERN).data(0x5000, OTHER).reg(10, 0x0040_0000)
    };
    vec![
        base("tlbwi-changes-a-used-translation")
            .cp0(number::ENTRY_HI, 0x0040_0000)
            .slot(0, [0, 0x0040_0000, frame(0x4000, 6), 0])
            .reg(20, frame(0x5000, 6) as u64)
            .reg(21, 0x4242)
            .code(&rewrite)
            .image(),
        base("entry-hi-changes-the-address-space")
            .cp0(number::ENTRY_HI, 1)
            .slot(0, [0, 0x0040_0001, frame(0x4000, 6), 0])
            .slot(1, [0, 0x0040_0002, frame(0x5000, 6), 0])
            .reg(20, 2)
            .reg(21, 3)
            .code(&change_asid)
            .image(),
        base("tlbwi-takes-the-running-page-away")
            .slot(0, [0, 0x0040_0000, frame(0x1000, 2), 0])
            .cp0(number::ENTRY_HI, 0x0040_0000)
            .pc(0x0040_0000)
            .code(&[TLBWI, ori(5, 0, 1)])
            .image(),
        base("mtc0-entry-hi-changes-the-running-space")
            .slot(0, [0, 0x0040_0000, frame(0x1000, 2), 0])
            .slot(1, [0, 0x0040_0001, frame(0x2000, 2), 0])
            .words(0x2000, &[NOP, ori(6, 0, 1)])
            .reg(20, 1)
            .pc(0x0040_0000)
            .code(&[mtc0(20, number::ENTRY_HI), ori(5, 0, 1)])
            .image(),
        base("store-changes-the-next-instruction")
            .reg(11, RAM_HIGH + 0x1000)
            .reg(20, ori(5, 0, 0x77) as u64)
            .code(&[sw(20, 4, 11), ori(5, 0, 0x11)])
            .image(),
    ]
}

/// Gives all images of this subject.
pub fn images() -> Vec<Image> {
    let mut images = Vec::new();
    for (size, mask) in SIZES {
        for odd in [false, true] {
            images.push(half(size, mask, odd, 0x0600_0000, 0));
            images.push(half(size, mask, odd, 0xc600_0000, 0));
            if mask != 0 {
                images.push(half(size, mask, odd, 0x0600_0000, 0xff_ffff));
            }
            images.push(fetch(size, mask, odd));
        }
    }
    images.extend(bits());
    images.extend(singles());
    images.extend(changes());
    images
}

#[cfg(test)]
mod tests {
    use super::*;
    use crate::answer::short_answer;

    #[test]
    fn every_half_reads_its_pattern() {
        for (size, mask) in SIZES {
            for odd in [false, true] {
                let image = half(size, mask, odd, 0x0600_0000, 0xff_ffff);
                let answer = short_answer(&image.text);
                assert!(answer.contains(&format!("\n0101{PATTERN:016x}\n")), "{}", image.name);
            }
        }
    }
}
