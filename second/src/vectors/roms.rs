//! Images that run with a boot ROM, and the ROM files they name.

use super::common::{frame, PATTERN};
use crate::assemble::*;
use crate::cp0::number;
use crate::draft::{Draft, RAM_HIGH};
use crate::many::Image;

const BOOT: &str = "boot.rom";
const ODD: &str = "odd.rom";
const SMALL: &str = "small.rom";
const ROM_HIGH: u64 = 0xffff_ffff_bfc0_0000;
const BOOT_LENGTH: usize = 0x400;

/// Puts words into ROM bytes.
fn place(rom: &mut [u8], at: usize, words: &[u32]) {
    for (number, word) in words.iter().enumerate() {
        rom[at + 4 * number..at + 4 * number + 4].copy_from_slice(&word.to_be_bytes());
    }
}

/// Gives the boot ROM: a start, a refill handler and a general handler.
fn boot() -> Vec<u8> {
    let mut rom = vec![0; BOOT_LENGTH];
    // The start copies two doublewords of ROM to RAM and runs on in RAM, in Kernel mode.
    place(
        &mut rom,
        0,
        &[
            lui(8, 0xbfc0),
            lui(9, 0x8000),
            ld(10, 0x100, 8),
            sd(10, 0x1000, 9),
            ld(10, 0x108, 8),
            sd(10, 0x1008, 9),
            lui(11, 0x0040),
            mtc0(11, number::STATUS),
            addiu(12, 9, 0x1000),
            jr(12),
            addiu(13, 0, 0x77),
        ],
    );
    place(&mut rom, 0x100, &[addiu(14, 13, 1), SYSCALL, addiu(15, 14, 1), addiu(16, 15, 1)]);
    // A refill maps the page pair onto itself, low frames, and returns.
    place(
        &mut rom,
        0x200,
        &[
            mfc0(26, number::CONTEXT),
            addiu(25, 25, 1),
            ori(27, 0, frame(0x4000, 6)),
            mtc0(27, number::ENTRY_LO0),
            ori(27, 0, frame(0x5000, 6)),
            mtc0(27, number::ENTRY_LO1),
            TLBWR,
            ERET,
        ],
    );
    place(
        &mut rom,
        0x380,
        &[
            mfc0(26, number::EPC),
            addiu(26, 26, 4),
            mtc0(26, number::EPC),
            mfc0(22, number::CAUSE),
            addiu(23, 23, 1),
            ERET,
        ],
    );
    rom
}

/// Gives the ROM files that images name, with their bytes.
pub fn files() -> Vec<(&'static str, Vec<u8>)> {
    vec![
        (BOOT, boot()),
        (ODD, vec![0; 12]),
        (SMALL, vec![0x24, 0x01, 0x00, 0x07, 0x24, 0x02, 0x00, 0x08]),
    ]
}

/// Gives all images of this subject.
pub fn images() -> Vec<Image> {
    let bev = 0x0040_0000u64;
    let at_rom = |name: &str| Draft::kernel(name).rom(BOOT).reg(8, ROM_HIGH).reg(2, PATTERN);
    let mut images = vec![
        Draft::fresh("rom-boot-from-reset").rom(BOOT).budget(24).image(),
        Draft::fresh("rom-small-runs-off-its-end").rom(SMALL).budget(4).image(),
        Draft::fresh("no-rom-at-reset").budget(3).image(),
        Draft::fresh("refusal-2-rom-length").rom(ODD).budget(3).image(),
        Draft::fresh("refusal-2-before-3").rom(ODD).lines(0x20).budget(3).image(),
        Draft::fresh("refusal-3-lines-20").lines(0x20).budget(3).image(),
        Draft::fresh("refusal-3-lines-ff").lines(0xff).budget(0).image(),
        at_rom("rom-loads")
            .code(&[lw(1, 0, 8), ld(3, 0x100, 8), access(0x24, 4, 0x3ff, 8), ld(5, 0x3f8, 8)])
            .image(),
        at_rom("rom-load-past-its-end").code(&[ld(1, 0x400, 8)]).image(),
        at_rom("rom-load-before-its-start").code(&[ld(1, 0xfff8, 8)]).image(),
        at_rom("rom-store").code(&[sw(2, 0, 8)]).image(),
        at_rom("rom-store-byte").code(&[access(0x28, 2, 1, 8)]).image(),
        at_rom("rom-sc-without-link").code(&[access(0x38, 2, 0, 8)]).image(),
        at_rom("rom-ll-sc").code(&[access(0x30, 1, 0, 8), access(0x38, 2, 0, 8)]).image(),
        at_rom("rom-cached-address").reg(8, 0xffff_ffff_9fc0_0000).code(&[lw(1, 0, 8)]).image(),
        at_rom("rom-mapped")
            .slot(0, [0, 0x0040_0000, 0x1fc0_0 << 6 | 6, 0])
            .reg(8, 0x0040_0000)
            .code(&[ld(1, 0x100, 8), sw(2, 0, 8)])
            .image(),
        at_rom("rom-mapped-above-4g")
            .slot(0, [0, 0x0040_0000, 0x11fc_00 << 6 | 6, 0])
            .reg(8, 0x0040_0000)
            .code(&[ld(1, 0x100, 8)])
            .image(),
        at_rom("rom-under-erl")
            .cp0(number::STATUS, 4)
            .reg(8, 0x1fc0_0000)
            .code(&[lw(1, 0, 8)])
            .image(),
        at_rom("bev-refill-is-served-and-returns")
            .cp0(number::STATUS, bev)
            .data(0x4008, 0x99)
            .reg(10, 0x0040_0000)
            .code(&[ld(1, 8, 10), sd(1, 0x1000, 10)])
            .budget(2 + 9)
            .image(),
        at_rom("bev-syscall-returns")
            .cp0(number::STATUS, bev)
            .code(&[SYSCALL, ori(5, 0, 1)])
            .budget(9)
            .image(),
        at_rom("bev-nested-refill")
            .cp0(number::STATUS, bev | 2)
            .reg(10, 0x0040_0000)
            .code(&[lw(1, 0, 10)])
            .budget(5)
            .image(),
    ];
    images.push(
        Draft::fresh("rom-user-program-cannot-reach-it")
            .rom(BOOT)
            .cp0(number::STATUS, 0x0040_0010)
            .slot(0, [0, 0, frame(0x2000, 2), 0])
            .words(0x2000, &[lw(1, 0, 8), NOP])
            .reg(8, ROM_HIGH)
            .pc(0)
            .budget(3)
            .image(),
    );
    images.push(
        Draft::kernel("uncached-and-cached-ram-are-one")
            .reg(8, RAM_HIGH + 0x4000)
            .reg(9, 0xffff_ffff_a000_4000)
            .reg(2, PATTERN)
            .code(&[sd(2, 0, 8), ld(1, 0, 9), sw(0, 4, 9), ld(3, 0, 8)])
            .image(),
    );
    images
}

#[cfg(test)]
mod tests {
    use super::*;
    use crate::answer::whole_answer;

    #[test]
    fn the_boot_rom_reaches_ram_and_its_handler() {
        let image = &images()[0];
        let answer = whole_answer(&image.text, 0, &boot());
        assert!(
            answer.contains("\n01100000000000000079\n")
                || answer.contains("\n010f0000000000000079\n"),
            "{answer}"
        );
        assert!(answer.contains("\n01170000000000000001\n"));
    }

    #[test]
    fn files_fit_their_names() {
        assert_eq!(files()[0].1.len() % 8, 0);
        assert_ne!(files()[1].1.len() % 8, 0);
    }
}
