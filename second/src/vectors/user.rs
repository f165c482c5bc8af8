//! User programs with every kind of forbidden access, and what they may do.

use super::common::*;
use crate::assemble::*;
use crate::cp0::number;
use crate::draft::{Draft, RAM_HIGH};
use crate::many::Image;

/// Addresses that a User program may not use.
const FORBIDDEN: [(&str, u64); 9] = [
    ("kseg0", RAM_HIGH),
    ("kseg0-end", 0xffff_ffff_9fff_fff8),
    ("kseg1", 0xffff_ffff_a000_0000),
    ("kseg2", 0xffff_ffff_c000_0000),
    ("kseg3", 0xffff_ffff_e000_0000),
    ("last", 0xffff_ffff_ffff_fff8),
    ("first-wide", 0x8000_0000),
    ("wide", 0x1_0040_1000),
    ("sign-only", 0x8000_0000_0040_1000),
];

/// Gives a page of data and a mapped kernel page for a User draft.
fn with_data(draft: Draft) -> Draft {
    draft
        .slot(1, [0, 0xc000_0000, frame(0x4000, 6), frame(0x4000, 6)])
        .slot(2, [0, 0x0080_0000, frame(0x5000, 2), frame(0x5000, 4)])
        .data(USER_DATA_AT, PATTERN)
        .data(0x4000, OTHER)
        .data(0x5000, !PATTERN)
        .reg(2, 0x0102_0304_0506_0708)
        .reg(10, USER_DATA)
        .reg(11, 0x0080_0000)
}

/// Drafts a load, a store and a jump to each forbidden address.
fn forbidden() -> Vec<Image> {
    let mut images = Vec::new();
    for (name, address) in FORBIDDEN {
        let kinds: [(&str, Vec<u32>); 6] = [
            ("load", vec![lw(1, 0, 12)]),
            ("store", vec![sw(2, 0, 12)]),
            ("byte", vec![access(0x20, 1, 7, 12)]),
            ("lwl", vec![access(0x22, 1, 1, 12)]),
            ("sc", vec![access(0x38, 2, 0, 12)]),
            ("jump", vec![jr(12), ori(5, 0, 1), NOP]),
        ];
        for (kind, code) in kinds {
            images.push(
                with_data(user(format!("user-{kind}-{name}"), &code)).reg(12, address).image(),
            );
        }
    }
    images
}

/// Drafts instructions that User mode forbids, alone and with CU0.
fn instructions() -> Vec<Image> {
    let words: Vec<(&str, u32)> = vec![
        ("mfc0", mfc0(1, number::STATUS)),
        ("dmfc0", dmfc0(1, number::STATUS)),
        ("mtc0", mtc0(2, number::COMPARE)),
        ("dmtc0", dmtc0(2, number::COMPARE)),
        ("tlbr", TLBR),
        ("tlbwi", TLBWI),
        ("tlbwr", TLBWR),
        ("tlbp", TLBP),
        ("eret", ERET),
        ("reserved-cop0", cp0_function(0x3f)),
        ("reserved-cop0-code", cp0_move(8, 0, 0)),
        ("cache", access(0x2f, 0, 0, 10)),
        ("cache-anywhere", access(0x2f, 0x15, 1, 0)),
        ("lwu", access(0x27, 1, 0, 10)),
        ("ld", ld(1, 0, 10)),
        ("sd", sd(2, 0, 10)),
        ("ldl", access(0x1a, 1, 0, 10)),
        ("ldr", access(0x1b, 1, 0, 10)),
        ("sdl", access(0x2c, 1, 0, 10)),
        ("sdr", access(0x2d, 1, 0, 10)),
        ("lld", access(0x34, 1, 0, 10)),
        ("scd", access(0x3c, 2, 0, 10)),
        ("ld-forbidden-address", ld(1, 1, 12)),
        ("daddi", immediate(0x18, 2, 1, 1)),
        ("daddiu", immediate(0x19, 2, 1, 1)),
        ("dadd", special(0x2c, 2, 2, 1, 0)),
        ("dsubu", special(0x2f, 2, 2, 1, 0)),
        ("dsll", special(0x38, 0, 2, 1, 4)),
        ("dsra32", special(0x3f, 0, 2, 1, 4)),
        ("dsllv", special(0x14, 2, 2, 1, 0)),
        ("dmult", special(0x1c, 2, 2, 0, 0)),
        ("ddivu", special(0x1f, 2, 2, 0, 0)),
        ("cop1", 0x4400_0000),
        ("cop2", 0x4800_0000),
        ("ldc1", 0xd400_0000),
        ("sdc2", 0xf800_0000),
        ("cop3", 0x4c00_0000),
        ("syscall", SYSCALL),
        ("break", BREAK),
        ("sync", SYNC),
        ("teq", special(0x34, 0, 0, 0, 0)),
        ("overflow", special(0x20, 13, 13, 1, 0)),
    ];
    let mut images = Vec::new();
    for (name, word) in words {
        for (kind, status) in [("", USER_STATUS), ("-cu0", 0x1000_0010)] {
            images.push(
                with_data(user(format!("user-{name}{kind}"), &[word, ori(5, 0, 1)]))
                    .cp0(number::STATUS, status)
                    .cp0(number::INDEX, 40)
                    .cp0(number::EPC, USER_CODE + 0x40)
                    .reg(12, RAM_HIGH)
                    .reg(13, 0x7fff_ffff)
                    .image(),
            );
        }
    }
    images
}

/// Drafts what a User program may do with its pages.
fn pages() -> Vec<Image> {
    let cases: [(&str, u32); 10] = [
        ("load", lw(1, 0, 10)),
        ("store", sw(2, 4, 10)),
        ("unaligned-load", lw(1, 2, 10)),
        ("unaligned-store", sw(2, 2, 10)),
        ("clean-load", lw(1, 0, 11)),
        ("clean-store", sw(2, 0, 11)),
        ("invalid-load", lw(1, 0x1000, 11)),
        ("invalid-store", sw(2, 0x1000, 11)),
        ("unmapped-load", lw(1, 0x2000, 11)),
        ("unmapped-store", sw(2, 0x2000, 11)),
    ];
    cases
        .into_iter()
        .map(|(name, word)| {
            with_data(user(format!("user-page-{name}"), &[word, ori(5, 0, 1)])).image()
        })
        .collect()
}

/// Drafts a User program that calls the system and goes on.
fn calls() -> Vec<Image> {
    let code = [
        ori(1, 0, 1),
        SYSCALL,
        ori(2, 0, 2),
        sw(2, 0, 10),
        BREAK,
        lw(3, 0, 10),
        mfc0(4, 12),
        ori(4, 0, 4),
    ];
    let run_off = [beq(0, 0, 0x3fe), NOP];
    vec![
        with_data(user("user-calls-and-returns", &code)).budget(8 + 3 * SKIP_STEPS).image(),
        with_data(user("user-runs-off-its-page", &run_off)).budget(8).image(),
        with_data(user("user-under-exl-is-kernel", &[mfc0(1, 12), lw(2, 0, 12), dmtc0(2, 28)]))
            .cp0(number::STATUS, 0x12)
            .reg(12, RAM_HIGH + 0x4000)
            .image(),
        with_data(user("user-interrupted", &[ori(1, 0, 1), ori(2, 0, 2)]))
            .cp0(number::STATUS, 0x8011)
            .cp0(number::COMPARE, 1)
            .budget(3)
            .image(),
        with_data(user(
            "user-with-cu0-makes-itself-kernel",
            &[mtc0(12, 12), lw(1, 0, 13), ld(2, 0, 13)],
        ))
        .cp0(number::STATUS, 0x1000_0010)
        .reg(12, 0)
        .reg(13, RAM_HIGH + 0x4000)
        .image(),
        Draft::kernel("kernel-makes-itself-user").reg(1, 0x10).code(&[mtc0(1, 12), NOP]).image(),
    ]
}

/// Gives all images of this subject.
pub fn images() -> Vec<Image> {
    let mut images = forbidden();
    images.extend(instructions());
    images.extend(pages());
    images.extend(calls());
    images
}

#[cfg(test)]
mod tests {
    use super::*;
    use crate::answer::whole_answer;

    #[test]
    fn forbidden_addresses_are_address_errors() {
        for image in forbidden() {
            let answer = whole_answer(&image.text, 0, &[]);
            let at = answer.find("\n040d").unwrap();
            let cause = u64::from_str_radix(&answer[at + 5..at + 21], 16).unwrap();
            assert!(matches!(cause >> 2 & 31, 4 | 5), "{}", image.name);
        }
    }
}
