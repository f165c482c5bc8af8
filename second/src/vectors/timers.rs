//! Count, Compare, the timer interrupt and software interrupts.

use super::common::{skipping, SKIP_STEPS};
use crate::assemble::*;
use crate::cp0::number;
use crate::draft::Draft;
use crate::many::Image;

/// Drafts Count running into Compare after some steps.
fn running() -> Vec<Image> {
    let mut images = Vec::new();
    for (name, count, compare) in [
        ("at-once", 9u64, 10u64),
        ("one-later", 9, 11),
        ("already-equal", 10, 10),
        ("past", 11, 10),
        ("wrap", 0xffff_ffff, 0),
        ("wrap-later", 0xffff_fffe, 1),
    ] {
        for (kind, status) in [
            ("masked", 0u64),
            ("enabled", 0x8001),
            ("exl", 0x8003),
            ("erl", 0x8005),
            ("other-mask", 0x7f01),
        ] {
            images.push(
                Draft::kernel(format!("timer-{name}-{kind}"))
                    .cp0(number::STATUS, status)
                    .cp0(number::COUNT, count)
                    .cp0(number::COMPARE, compare)
                    .code(&[mfc0(1, 9), mfc0(2, 13), mfc0(3, 13), mfc0(4, 9)])
                    .image(),
            );
        }
    }
    images
}

/// Drafts writes to Count and Compare that meet each other in the same step.
fn writes() -> Vec<Image> {
    let cases: Vec<(&str, Vec<u32>)> = vec![
        ("compare-write-hits-at-once", vec![mtc0(1, 11), mfc0(5, 13)]),
        ("compare-write-just-misses", vec![mtc0(2, 11), mfc0(5, 13)]),
        ("compare-write-clears", vec![mtc0(3, 9), mfc0(5, 13), mtc0(10, 11), mfc0(6, 13)]),
        ("compare-write-clears-and-sets", vec![mtc0(3, 9), mfc0(5, 13), mtc0(4, 11), mfc0(6, 13)]),
        ("count-write-then-hit", vec![mtc0(3, 9), mfc0(5, 13), mfc0(6, 9)]),
        ("count-write-of-compare-misses", vec![mtc0(4, 9), mfc0(5, 13), mfc0(6, 9)]),
        ("cause-write-keeps-the-timer", vec![mtc0(3, 9), mtc0(0, 13), mfc0(5, 13)]),
        ("cause-write-cannot-set-the-timer", vec![mtc0(11, 13), mfc0(5, 13)]),
        ("dmtc0-compare", vec![dmtc0(12, 11), mfc0(5, 13), mfc0(6, 11)]),
    ];
    cases
        .into_iter()
        .map(|(name, code)| {
            // Count starts at 0x20; Compare at 0x100 unless written.
            Draft::kernel(format!("timer-{name}"))
                .cp0(number::COUNT, 0x20)
                .cp0(number::COMPARE, 0x100)
                .reg(1, 0x21)
                .reg(2, 0x20)
                .reg(3, 0xff)
                .reg(4, 0x100)
                .reg(10, 0x5000)
                .reg(11, u64::MAX)
                .reg(12, 0xffff_ffff_0000_0021)
                .code(&code)
                .image()
        })
        .collect()
}

/// Drafts a program whose timer handler sets the next Compare and returns.
fn ticking() -> Image {
    let handler = [
        mfc0(26, number::COMPARE),
        addiu(26, 26, 20),
        mtc0(26, number::COMPARE),
        addiu(23, 23, 1),
        ERET,
    ];
    Draft::kernel("timer-ticks-through-a-loop")
        .cp0(number::STATUS, 0x8001)
        .cp0(number::COMPARE, 7)
        .words(0x180, &handler)
        .code(&[addiu(1, 1, 1), bne(1, 2, -2), addiu(3, 3, 2)])
        .budget(120)
        .image()
}

/// Drafts software interrupts raised and lowered by the program itself.
fn software() -> Vec<Image> {
    let mut images = Vec::new();
    for (name, bits, status) in [
        ("0", 0x100u64, 0x0101u64),
        ("1", 0x200, 0x0201),
        ("both", 0x300, 0x0301),
        ("masked", 0x100, 0x0201),
        ("disabled", 0x300, 0x0300),
        ("under-exl", 0x300, 0x0303),
        ("under-erl", 0x300, 0x0305),
    ] {
        let code = [mtc0(1, 13), ori(5, 0, 1), mfc0(6, 13), mtc0(0, 13), mfc0(7, 13)];
        images.push(
            Draft::kernel(format!("software-interrupt-{name}"))
                .cp0(number::STATUS, status)
                .reg(1, bits)
                .words(0x180, &[mtc0(0, 13), ERET])
                .code(&code)
                .budget(8)
                .image(),
        );
    }
    images.push(
        Draft::kernel("software-interrupt-raised-in-a-slot")
            .cp0(number::STATUS, 0x0101)
            .reg(1, 0x100)
            .code(&[beq(0, 0, 4), mtc0(1, 13)])
            .budget(3)
            .image(),
    );
    images.push(
        Draft::kernel("interrupt-before-a-bad-fetch")
            .cp0(number::STATUS, 0x0101)
            .cp0(number::CAUSE, 0x100)
            .pc(0x1234_5678_9abc_def1)
            .budget(1)
            .image(),
    );
    images.push(
        Draft::kernel("interrupt-before-a-stop")
            .cp0(number::STATUS, 0x0101)
            .cp0(number::CAUSE, 0x100)
            .slot(0, [0, 0x0040_0000, 0, 0])
            .slot(1, [0, 0x0040_0000, 0, 0])
            .pc(0x0040_0000)
            .budget(1)
            .image(),
    );
    images
}

/// Drafts lines that stay up and return to a handler again and again.
fn lines() -> Vec<Image> {
    (0..32)
        .step_by(3)
        .map(|lines| {
            skipping(Draft::kernel(format!("lines-{lines:02x}")))
                .cp0(number::STATUS, 0xff01)
                .lines(lines)
                .code(&[ori(1, 0, 1), mfc0(2, 13), ori(3, 0, 3), ori(4, 0, 4)])
                .budget(3 + SKIP_STEPS)
                .image()
        })
        .collect()
}

/// Gives all images of this subject.
pub fn images() -> Vec<Image> {
    let mut images = running();
    images.extend(writes());
    images.push(ticking());
    images.extend(software());
    images.extend(lines());
    images
}

#[cfg(test)]
mod tests {
    use super::*;
    use crate::answer::short_answer;

    #[test]
    fn the_ticking_handler_runs_several_times() {
        let answer = short_answer(&ticking().text);
        assert!(answer.contains("\n01170000000000000006\n"), "{answer}");
    }
}
