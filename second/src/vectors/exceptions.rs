//! Every exception, with and without EXL, BEV and a slot.

use super::common::{frame, skipping, PATTERN, SKIP_STEPS};
use crate::assemble::*;
use crate::cp0::number;
use crate::draft::{Draft, CODE_HIGH, RAM_HIGH};
use crate::many::Image;

/// How an exception is brought about.
enum How {
    /// By executing a word.
    Word(u32),
    /// By fetching from the second address, reached in a slot from just before it.
    Fetch { alone: u64, after: u64, branch_at: u32 },
    /// By an interrupt: enabled bits, lines, software bits and Compare.
    Interrupt { mask: u64, lines: u32, software: u64, compare: u64 },
}

const LW: u32 = 0x23;
const SW: u32 = 0x2b;
const MASK_ALL: u64 = 0xff00;

/// Gives every exception by name.
fn cases() -> Vec<(&'static str, How)> {
    let interrupt = |mask: u64, lines: u32, software: u64, compare: u64| How::Interrupt {
        mask,
        lines,
        software,
        compare,
    };
    vec![
        ("int-software-0", interrupt(0x100, 0, 0x100, 0)),
        ("int-software-1", interrupt(0x200, 0, 0x300, 0)),
        ("int-line-0", interrupt(0x400, 1, 0, 0)),
        ("int-line-1", interrupt(0x800, 2, 0, 0)),
        ("int-line-2", interrupt(0x1000, 4, 0, 0)),
        ("int-line-3", interrupt(0x2000, 8, 0, 0)),
        ("int-line-4", interrupt(0x4000, 16, 0, 0)),
        ("int-all", interrupt(MASK_ALL, 31, 0x300, 0)),
        ("int-masked", interrupt(0x8000, 31, 0x300, 0)),
        ("int-timer", interrupt(0x8000, 0, 0, 1)),
        ("mod", How::Word(access(SW, 1, 8, 12))),
        ("tlbl-refill", How::Word(access(LW, 1, 0x124, 13))),
        ("tlbs-refill", How::Word(access(SW, 1, 0x124, 13))),
        ("tlbl-invalid", How::Word(access(LW, 1, 0x10, 14))),
        ("tlbs-invalid", How::Word(access(SW, 1, 0x10, 14))),
        ("adel-unaligned", How::Word(access(LW, 1, 1, 10))),
        ("ades-unaligned", How::Word(access(SW, 1, 2, 10))),
        ("adel-wide", How::Word(access(LW, 1, 0, 15))),
        ("ades-wide", How::Word(access(SW, 1, 0, 15))),
        ("dbe-load", How::Word(access(LW, 1, 0, 16))),
        ("dbe-store", How::Word(access(SW, 1, 0, 16))),
        ("sys", How::Word(SYSCALL | 0x1234 << 6)),
        ("bp", How::Word(BREAK | 0x1234 << 6)),
        ("ri-opcode", How::Word(0x7c00_0000)),
        ("ri-special", How::Word(0x0000_0001)),
        ("ri-regimm", How::Word(0x041f_0000)),
        ("ri-cop0", How::Word(0x4200_003f)),
        ("ri-cop3", How::Word(0x4c00_0000)),
        ("cpu-1", How::Word(0x4400_0000)),
        ("cpu-2", How::Word(0x4800_0000)),
        ("cpu-lwc1", How::Word(0xc400_0001)),
        ("cpu-sdc2", How::Word(0xf800_0001)),
        ("ov-add", How::Word(special(0x20, 17, 17, 1, 0))),
        ("ov-dsub", How::Word(special(0x2e, 18, 17, 1, 0))),
        ("tr-teq", How::Word(special(0x34, 1, 1, 0, 0))),
        ("tr-tnei", How::Word(regimm(0x0e, 0, 1))),
        (
            "fetch-adel-unaligned",
            How::Fetch { alone: CODE_HIGH + 2, after: 0x8000_0000, branch_at: 0x6ffc },
        ),
        (
            "fetch-adel-wide",
            How::Fetch { alone: 0x1_0000_0000, after: 0x8000_0000, branch_at: 0x6ffc },
        ),
        ("fetch-refill", How::Fetch { alone: 0x0070_0124, after: 0x0060_2000, branch_at: 0x6ffc }),
        ("fetch-invalid", How::Fetch { alone: 0x0050_1010, after: 0x0050_1000, branch_at: 0x4ffc }),
        (
            "fetch-ibe",
            How::Fetch {
                alone: 0xffff_ffff_a001_0000,
                after: RAM_HIGH + 0x1_0000,
                branch_at: 0xfffc,
            },
        ),
    ]
}

/// Starts a draft with the pages and registers that the words use.
fn with_pages(name: String, status: u64) -> Draft {
    Draft::fresh(name)
        .cp0(number::STATUS, status)
        .cp0(number::ENTRY_HI, 0x1234_5077)
        .cp0(number::CONTEXT, 0xfedc_ba98_7680_0000)
        .cp0(number::EPC, 0x1122_3344_5566_7788)
        .slot(0, [0, 0x0040_0077, frame(0x5000, 2), frame(0x5000, 2)])
        .slot(1, [0, 0x0050_0077, frame(0x4000, 6), frame(0x5000, 4)])
        .slot(2, [0, 0x0060_0077, 0, frame(0x6000, 2)])
        .slot(3, [0, 0x7fff_e077, 0, frame(0x6000, 2)])
        .data(0x5000, PATTERN)
        .reg(1, 0x0bad_cafe_0bad_cafe)
        .reg(10, RAM_HIGH + 0x5000)
        .reg(12, 0x0040_0000)
        .reg(13, 0x0070_0000)
        .reg(14, 0x0050_1000)
        .reg(15, 0x1_0000_5000)
        .reg(16, 0xffff_ffff_a001_0000)
        .reg(17, 0x7fff_ffff)
        .reg(18, 0x8000_0000_0000_0000)
        .reg(31, 0x99)
}

/// Drafts one exception in one situation.
fn draft(name: &str, how: &How, exl: bool, bev: bool, slot: bool) -> Image {
    let status = (exl as u64) << 1 | (bev as u64) << 22;
    let name = format!(
        "{name}{}{}{}",
        if exl { "-exl" } else { "" },
        if bev { "-bev" } else { "" },
        if slot { "-slot" } else { "" }
    );
    let branch = beq(0, 0, 4);
    match how {
        How::Word(word) => {
            let code = if slot { vec![branch, *word] } else { vec![*word] };
            with_pages(name, status).pc(CODE_HIGH).code(&code).image()
        }
        How::Fetch { alone, .. } if !slot => with_pages(name, status).pc(*alone).budget(1).image(),
        How::Fetch { after, branch_at, .. } => {
            with_pages(name, status).pc(after - 4).words(*branch_at, &[branch]).budget(2).image()
        }
        How::Interrupt { mask, lines, software, compare } => {
            let enabled = status | mask | 1;
            let draft = with_pages(name, if slot { status } else { enabled })
                .cp0(number::COMPARE, *compare)
                .cp0(number::CAUSE, *software)
                .reg(20, enabled)
                .pc(CODE_HIGH)
                .lines(*lines);
            if slot {
                // The enabling move stands in a slot, and the interrupt comes at the target.
                draft.code(&[beq(0, 0, 2), mtc0(20, number::STATUS), NOP]).image()
            } else {
                draft.code(&[NOP, NOP]).budget(if *compare == 0 { 1 } else { 2 }).image()
            }
        }
    }
}

/// Drafts an interrupt that the end of a branch's own step makes due in its slot.
fn timer_in_slot(exl: bool, bev: bool, taken: bool) -> Image {
    let status = (exl as u64) << 1 | (bev as u64) << 22 | 0x8001;
    let name = format!(
        "int-timer-in-the-slot-{}{}{}",
        if taken { "taken" } else { "not-taken" },
        if exl { "-exl" } else { "" },
        if bev { "-bev" } else { "" }
    );
    let branch = if taken { beq(0, 0, 4) } else { bne(0, 0, 4) };
    with_pages(name, status)
        .cp0(number::COMPARE, 2)
        .pc(CODE_HIGH)
        .code(&[NOP, branch, ori(5, 0, 1)])
        .image()
}

/// Drafts a second exception inside the handler of a first one.
fn nested() -> Vec<Image> {
    let mut images = Vec::new();
    for (name, how) in cases() {
        if let How::Word(word) = how {
            images.push(
                with_pages(format!("{name}-in-a-handler"), 0)
                    .pc(CODE_HIGH)
                    .code(&[beq(0, 0, 4), SYSCALL])
                    .words(0x180, &[ori(5, 0, 1), word])
                    .budget(4)
                    .image(),
            );
        }
    }
    images
}

/// Gives all images of this subject.
pub fn images() -> Vec<Image> {
    let mut images = Vec::new();
    for (name, how) in cases() {
        for situation in 0..8 {
            let (exl, bev, slot) = (situation & 1 != 0, situation & 2 != 0, situation & 4 != 0);
            images.push(draft(name, &how, exl, bev, slot));
        }
    }
    for situation in 0..8 {
        let (exl, bev, taken) = (situation & 1 != 0, situation & 2 != 0, situation & 4 != 0);
        images.push(timer_in_slot(exl, bev, taken));
    }
    images.extend(nested());
    images.push(
        skipping(with_pages("bd-is-cleared-by-the-next-exception".to_string(), 0))
            .pc(CODE_HIGH)
            .code(&[beq(0, 0, 4), SYSCALL])
            .budget(3 + SKIP_STEPS - 1)
            .image(),
    );
    images
}

#[cfg(test)]
mod tests {
    use super::*;
    use crate::answer::whole_answer;

    /// Gives the value of a CP0 register in an answer.
    fn cp0(answer: &str, register: u32) -> u64 {
        let at = answer.find(&format!("\n04{register:02x}")).unwrap();
        u64::from_str_radix(&answer[at + 5..at + 21], 16).unwrap()
    }

    #[test]
    fn every_case_raises_the_exception_of_its_name() {
        let prefixes = [
            "int", "mod", "tlbl", "tlbs", "adel", "ades", "ibe", "dbe", "sys", "bp", "ri", "cpu",
            "ov", "tr",
        ];
        for (name, how) in cases() {
            if name == "int-masked" {
                continue;
            }
            let short = name.strip_prefix("fetch-").unwrap_or(name);
            let code =
                prefixes.iter().position(|prefix| short.starts_with(prefix)).unwrap_or(2) as u64;
            for slot in [false, true] {
                let image = draft(name, &how, false, false, slot);
                let answer = whole_answer(&image.text, image.lines, &[]);
                let cause = cp0(&answer, number::CAUSE);
                assert_eq!(cause >> 2 & 31, code, "{}", image.name);
                let in_slot = slot && !matches!(how, How::Interrupt { .. });
                assert_eq!(cause >> 31 & 1, in_slot as u64, "{}", image.name);
                assert_ne!(cp0(&answer, number::EPC), 0x1122_3344_5566_7788, "{}", image.name);
            }
        }
    }

    #[test]
    fn timers_reach_the_slot() {
        let image = timer_in_slot(false, false, false);
        let answer = whole_answer(&image.text, 0, &[]);
        assert_eq!(cp0(&answer, number::EPC), CODE_HIGH + 4);
        assert_eq!(cp0(&answer, number::CAUSE), 0xffff_ffff_8000_8000);
    }
}
