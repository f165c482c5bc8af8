//! The four TLB operations.

use super::common::{frame, skipping};
use crate::assemble::*;
use crate::cp0::number;
use crate::draft::Draft;
use crate::many::Image;

/// Starts a draft whose CP0 registers hold a whole entry.
fn with_entry(name: String) -> Draft {
    skipping(Draft::kernel(name))
        .cp0(number::PAGE_MASK, 0x1_e000)
        .cp0(number::ENTRY_HI, 0xffff_ffff)
        .cp0(number::ENTRY_LO0, 0xffff_ffff)
        .cp0(number::ENTRY_LO1, 0x1555_5557)
}

/// Drafts writes and reads of slots named by Index.
fn indexed() -> Vec<Image> {
    let mut images = Vec::new();
    for index in [0u64, 1, 31, 46, 47, 48, 49, 62, 63, 0x8000_0005, 0xffff_ffff] {
        images.push(
            with_entry(format!("tlbwi-index-{index:x}"))
                .cp0(number::INDEX, index)
                .code(&[TLBWI])
                .image(),
        );
        let code = [TLBR, dmfc0(1, 5), dmfc0(2, 10), dmfc0(3, 2), dmfc0(4, 3)];
        images.push(
            with_entry(format!("tlbr-index-{index:x}"))
                .cp0(number::INDEX, index)
                .slot(5, [0x6000, 0xdead_beef, 0x3fff_ffff, 0x3fff_ffff])
                .slot(47, [0x1ff_e000, 0xdead_beef, 0x2aaa_aaaa, 0x1555_5555])
                .code(&code)
                .image(),
        );
    }
    images
}

/// Drafts writes at Random under different values of Wired.
fn random() -> Vec<Image> {
    let mut images = Vec::new();
    for wired in [0u64, 1, 24, 45, 46, 47, 48, 63] {
        images.push(
            with_entry(format!("tlbwr-wired-{wired}"))
                .cp0(number::WIRED, wired)
                .reg(1, 0x2000)
                .code(&[
                    TLBWR,
                    mfc0(5, number::RANDOM),
                    mtc0(1, number::ENTRY_HI),
                    TLBWR,
                    mfc0(6, number::RANDOM),
                    TLBWR,
                    mfc0(7, number::RANDOM),
                ])
                .image(),
        );
        images.push(
            Draft::kernel(format!("random-runs-wired-{wired}"))
                .cp0(number::WIRED, wired)
                .budget(49)
                .image(),
        );
        images.push(
            Draft::kernel(format!("random-after-wired-write-{wired}"))
                .reg(1, wired)
                .code(&[
                    NOP,
                    NOP,
                    mtc0(1, number::WIRED),
                    mfc0(5, number::RANDOM),
                    mfc0(6, number::RANDOM),
                    dmtc0(1, number::WIRED),
                ])
                .image(),
        );
    }
    images.push(
        Draft::kernel("wired-write-in-a-slot")
            .reg(1, 9)
            .code(&[beq(0, 0, 4), mtc0(1, number::WIRED)])
            .image(),
    );
    images.push(
        Draft::kernel("random-above-a-late-wired")
            .reg(1, 63)
            .reg(2, 40)
            .code(&[mtc0(1, number::WIRED), NOP, NOP, NOP, mtc0(2, number::WIRED), NOP])
            .image(),
    );
    images
}

/// Drafts probes that find, miss, and ignore what they must.
fn probes() -> Vec<Image> {
    let cases: [(&str, u64); 10] = [
        ("fresh-slot", 0x8000_2000),
        ("fresh-slot-last", 0x8005_e000),
        ("other-asid", 0x8000_2001),
        ("global", 0x0040_0033),
        ("same-asid", 0x0080_0044),
        ("not-same-asid", 0x0080_0045),
        ("under-the-mask", 0x00c7_e000),
        ("past-the-mask", 0x00c8_0000),
        ("invalid-entry", 0x0100_0000),
        ("nothing", 0x0200_0000),
    ];
    cases
        .into_iter()
        .map(|(name, entry_hi)| {
            Draft::kernel(format!("tlbp-{name}"))
                .cp0(number::INDEX, 0x8000_003f)
                .cp0(number::ENTRY_HI, entry_hi)
                .cp0(number::PAGE_MASK, 0x1ff_e000)
                .slot(40, [0, 0x0040_0011, 7, 7])
                .slot(41, [0, 0x0080_0044, 6, 6])
                .slot(42, [0x7_e000, 0x00c0_0000, 6, 6])
                .slot(43, [0, 0x0100_0000, 0, 0])
                .code(&[TLBP, mfc0(1, number::INDEX)])
                .image()
        })
        .collect()
}

/// Drafts a refill handler as systems write it.
fn refill_handler() -> Image {
    let handler = [
        dmfc0(26, number::CONTEXT),
        lw(27, 0, 26),
        lw(26, 4, 26),
        mtc0(27, number::ENTRY_LO0),
        mtc0(26, number::ENTRY_LO1),
        TLBWR,
        ERET,
    ];
    // The page table lies at 0xc0000000 and is mapped by slot 0; its page is physical 0x6000.
    Draft::kernel("refill-handler")
        .cp0(number::WIRED, 1)
        .cp0(number::CONTEXT, 0xffff_ffff_c000_0000)
        .slot(0, [0, 0xc000_2000, frame(0x6000, 3), 1])
        .words(0, &handler)
        .data(0x6000, (frame(0x4000, 6) as u64) << 32 | frame(0x5000, 6) as u64)
        .data(0x4008, 0x0102_0304_0506_0708)
        .reg(10, 0x0040_0000)
        .code(&[ld(1, 8, 10), sd(1, 0x1000, 10), lw(2, 0xc, 10)])
        .budget(3 + 8)
        .image()
}

/// Gives all images of this subject.
pub fn images() -> Vec<Image> {
    let mut images = indexed();
    images.extend(random());
    images.extend(probes());
    images.push(refill_handler());
    images
}

#[cfg(test)]
mod tests {
    use super::*;
    use crate::answer::whole_answer;

    #[test]
    fn the_refill_handler_serves_the_load() {
        let answer = whole_answer(&refill_handler().text, 0, &[]);
        assert!(answer.contains("\n01010102030405060708\n"), "{answer}");
        assert!(answer.contains("\n02000050000102030405060708\n"));
    }

    #[test]
    fn probes_find_what_their_names_say() {
        let indices: Vec<String> = probes()
            .iter()
            .map(|image| {
                let answer = whole_answer(&image.text, 0, &[]);
                let at = answer.find("\n0400").unwrap();
                answer[at + 13..at + 21].to_string()
            })
            .collect();
        let expected = [
            "00000001", "0000002f", "80000000", "00000028", "00000029", "80000000", "0000002a",
            "80000000", "0000002b", "80000000",
        ];
        assert_eq!(indices, expected);
    }
}
