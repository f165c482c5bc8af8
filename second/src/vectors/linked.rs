//! LL, LLD, SC and SCD.

use super::common::{frame, skipping, OTHER, PATTERN, SKIP_STEPS};
use crate::assemble::*;
use crate::draft::{Draft, RAM_HIGH};
use crate::many::Image;

const LL: u32 = 0x30;
const LLD: u32 = 0x34;
const SC: u32 = 0x38;
const SCD: u32 = 0x3c;

/// Starts a draft with a page of data that is writable, one that is not, and one not valid.
fn with_pages(name: &str) -> Draft {
    skipping(Draft::kernel(name))
        .slot(0, [0, 0x0040_0000, frame(0x4000, 6), frame(0x5000, 2)])
        .slot(1, [0, 0x0040_2000, frame(0x6000, 4), 0x3fff_ffc6])
        .data(0x4000, PATTERN)
        .data(0x4008, OTHER)
        .reg(2, 0x0102_0304_0506_0708)
        .reg(3, 0x1111_2222_3333_4444)
        .reg(10, RAM_HIGH + 0x4000)
        .reg(11, 0x0040_0000)
        .reg(12, 0x0040_1000)
        .reg(13, 0x0040_2000)
        .reg(14, 0xffff_ffff_a001_0000)
        .reg(15, 0x0040_4000)
        .reg(16, 0x0040_3000)
}

/// Gives all images of this subject.
pub fn images() -> Vec<Image> {
    let cases: Vec<(&str, Vec<u32>)> = vec![
        ("sc-without-link", vec![access(SC, 2, 0, 10)]),
        ("scd-without-link", vec![access(SCD, 2, 0, 10)]),
        ("ll-sc", vec![access(LL, 1, 0, 10), access(SC, 2, 4, 10)]),
        ("lld-scd", vec![access(LLD, 1, 8, 10), access(SCD, 2, 8, 10)]),
        ("ll-scd", vec![access(LL, 1, 12, 10), access(SCD, 2, 0, 10)]),
        ("lld-sc", vec![access(LLD, 1, 0, 10), access(SC, 2, 12, 10)]),
        (
            "sc-keeps-the-link",
            vec![access(LL, 1, 0, 10), access(SC, 2, 0, 10), access(SC, 3, 4, 10)],
        ),
        ("ll-to-r0", vec![access(LL, 0, 0, 10), copy(3, 0), access(SC, 2, 0, 10)]),
        ("sc-of-r0", vec![access(LL, 1, 0, 10), access(SC, 0, 4, 10), copy(3, 0)]),
        ("sc-of-r0-without-link", vec![access(SC, 0, 4, 10), copy(3, 0)]),
        ("store-between-ll-and-sc", vec![access(LL, 1, 0, 10), sw(3, 0, 10), access(SC, 2, 0, 10)]),
        ("sc-elsewhere", vec![access(LL, 1, 0, 10), access(SC, 2, 0x100, 10)]),
        ("ll-mapped", vec![access(LL, 1, 8, 11), access(SC, 2, 8, 11), dmfc0(4, 17)]),
        ("ll-odd-half", vec![access(LL, 1, 0x7c, 12), mfc0(4, 17)]),
        ("sc-to-a-clean-page", vec![access(LL, 1, 0, 12), access(SC, 2, 0, 12)]),
        ("sc-to-a-clean-page-without-link", vec![access(SC, 2, 0, 12)]),
        ("sc-to-an-invalid-page", vec![access(SC, 2, 0, 13)]),
        ("ll-from-an-invalid-page", vec![access(LL, 1, 0, 13), access(SC, 2, 0, 10)]),
        ("sc-to-an-unmapped-page", vec![access(SC, 2, 0, 15)]),
        ("ll-from-an-unmapped-page", vec![access(LL, 1, 0, 15), access(SC, 2, 0, 10)]),
        ("sc-to-nowhere-without-link", vec![access(SC, 2, 0, 14)]),
        ("sc-to-nowhere", vec![access(LL, 1, 0, 10), access(SC, 2, 0, 14)]),
        ("ll-from-nowhere", vec![access(LL, 1, 0, 14), access(SC, 2, 0, 10)]),
        ("ll-from-the-highest-frame", vec![access(LL, 1, 0xff0, 16), access(SC, 2, 0, 10)]),
        ("ll-unaligned", vec![access(LL, 1, 2, 10), access(SC, 2, 0, 10)]),
        ("lld-unaligned", vec![access(LLD, 1, 4, 10), access(SC, 2, 0, 10)]),
        ("sc-unaligned-without-link", vec![access(SC, 2, 2, 10)]),
        ("scd-unaligned", vec![access(LL, 1, 0, 10), access(SCD, 2, 4, 10)]),
        ("syscall-between-ll-and-sc", vec![access(LL, 1, 0, 10), SYSCALL, access(SC, 2, 0, 10)]),
        (
            "ll-then-lladdr-write",
            vec![access(LL, 1, 0, 10), mtc0(3, 17), dmtc0(3, 17), mfc0(4, 17)],
        ),
    ];
    let mut images: Vec<Image> = cases
        .into_iter()
        .map(|(name, code)| {
            let steps = code.len() as u32;
            with_pages(name).code(&code).budget(steps + 2 * SKIP_STEPS).image()
        })
        .collect();
    let pending = [access(LL, 1, 0, 10), SYSCALL];
    images.push(with_pages("exception-keeps-the-link").code(&pending).image());
    for (name, status) in [("exl", 2u64), ("erl", 4), ("neither", 0), ("both", 6)] {
        let code = [access(LL, 1, 0, 10), ERET, NOP];
        images.push(
            with_pages(&format!("eret-clears-the-link-{name}"))
                .cp0(12, status)
                .cp0(14, RAM_HIGH + 0x1100)
                .cp0(30, RAM_HIGH + 0x1200)
                .code(&code)
                .image(),
        );
    }
    images
}

#[cfg(test)]
mod tests {
    use super::*;
    use crate::answer::whole_answer;

    #[test]
    fn the_link_bit_shows_in_the_answer() {
        let find = |name: &str| {
            let image = images().into_iter().find(|image| image.name == name).unwrap();
            whole_answer(&image.text, 0, &[])
        };
        assert!(find("sc-keeps-the-link").contains("\n0a00000000000000000001\n"));
        assert!(find("eret-clears-the-link-exl").contains("\n0a00000000000000000000\n"));
        assert!(find("ll-mapped").contains("\n04110000000000000400\n"));
    }
}
