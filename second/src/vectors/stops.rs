//! The stops 16, 17 and 18, and what comes before them.

use super::common::{frame, user};
use crate::assemble::*;
use crate::cp0::number;
use crate::draft::Draft;
use crate::many::Image;

/// Drafts addresses that two slots match.
fn double_matches() -> Vec<Image> {
    let draft = |name: &str| {
        Draft::kernel(format!("stop-16-{name}"))
            .slot(3, [0, 0x0040_0000, frame(0x4000, 6), frame(0x5000, 6)])
            .reg(10, 0x0040_0000)
            .reg(2, 0x1234)
    };
    let twin = [0, 0x0040_0000, frame(0x4000, 6), frame(0x5000, 6)];
    let load = [NOP, lw(1, 0, 10)];
    vec![
        draft("load").slot(4, twin).code(&load).image(),
        draft("store").slot(4, twin).code(&[NOP, sw(2, 0, 10)]).image(),
        draft("sc-without-link").slot(4, twin).code(&[NOP, access(0x38, 2, 0, 10)]).image(),
        draft("fetch").slot(4, twin).pc(0x0040_0000).budget(1).image(),
        draft("tlbp").slot(4, twin).cp0(number::ENTRY_HI, 0x0040_0000).code(&[TLBP]).image(),
        draft("not-valid").slot(4, [0, 0x0040_0000, 0, 0]).code(&load).image(),
        draft("both-not-valid")
            .slot(3, [0, 0x0040_0000, 0, 0])
            .slot(4, [0, 0x0040_0000, 0, 0])
            .code(&load)
            .image(),
        draft("global").slot(4, [0, 0x0040_00ff, 1, 1]).code(&load).image(),
        draft("larger-page").slot(4, [0x1ff_e000, 0, 0, 0]).code(&load).image(),
        draft("three-slots").slot(0, twin).slot(47, twin).code(&load).image(),
        draft("first-and-last")
            .slot(3, [0, 0x0080_0000, 0, 0])
            .slot(0, twin)
            .slot(47, twin)
            .code(&load)
            .image(),
        draft("in-a-slot").slot(4, twin).code(&[beq(0, 0, 4), lw(1, 0, 10)]).image(),
        draft("not-when-unaligned").slot(4, twin).code(&[NOP, lw(1, 1, 10)]).image(),
        draft("not-for-other-asid").slot(4, [0, 0x0040_0001, 0, 0]).code(&load).image(),
        draft("not-under-erl")
            .cp0(number::STATUS, 4)
            .slot(4, twin)
            .reg(10, 0x4000)
            .code(&load)
            .image(),
        draft("not-before-use").slot(4, twin).code(&[NOP, TLBR, TLBWI, NOP]).image(),
        draft("made-by-tlbwi")
            .cp0(number::ENTRY_HI, 0x0040_0000)
            .cp0(number::INDEX, 9)
            .code(&[lw(1, 0, 10), TLBWI, lw(2, 0, 10)])
            .image(),
        draft("sees-exl").slot(4, twin).cp0(number::STATUS, 2).code(&load).image(),
    ]
}

/// Gives every branch, jump and ERET by name.
fn leaving() -> Vec<(String, u32)> {
    let mut words: Vec<(String, u32)> = vec![
        ("j".to_string(), jump(2, 0)),
        ("jal".to_string(), jump(3, 0)),
        ("jr".to_string(), jr(1)),
        ("jalr".to_string(), special(0x09, 1, 0, 31, 0)),
        ("eret".to_string(), ERET),
    ];
    for (name, opcode) in [
        ("beq", 0x04),
        ("bne", 0x05),
        ("blez", 0x06),
        ("bgtz", 0x07),
        ("beql", 0x14),
        ("bnel", 0x15),
        ("blezl", 0x16),
        ("bgtzl", 0x17),
    ] {
        words.push((name.to_string(), immediate(opcode, 0, 0, 3)));
    }
    for (name, sub) in [
        ("bltz", 0x00),
        ("bgez", 0x01),
        ("bltzl", 0x02),
        ("bgezl", 0x03),
        ("bltzal", 0x10),
        ("bgezal", 0x11),
        ("bltzall", 0x12),
        ("bgezall", 0x13),
    ] {
        words.push((name.to_string(), regimm(sub, 0, 3)));
    }
    words
}

/// Gives the name of a branch in a slot in User mode, where ERET is not even usable.
fn user_name(name: &str) -> String {
    match name {
        "eret" => "cpu-before-stop-17-eret".to_string(),
        _ => format!("stop-17-{name}-in-user-mode"),
    }
}

/// Drafts every branch in the slots of a taken and of a not taken branch.
fn branches_in_slots() -> Vec<Image> {
    let mut images = Vec::new();
    for (name, word) in leaving() {
        images.push(
            Draft::kernel(format!("stop-17-{name}-after-taken"))
                .code(&[beq(0, 0, 4), word])
                .image(),
        );
        images.push(
            Draft::kernel(format!("stop-17-{name}-after-not-taken"))
                .code(&[bne(0, 0, 4), word])
                .image(),
        );
        // After a likely branch not taken there is no slot, hence no stop.
        images.push(
            Draft::kernel(format!("no-stop-17-{name}-past-a-skipped-slot"))
                .code(&[immediate(0x15, 0, 0, 4), ERET, word])
                .budget(2)
                .image(),
        );
        images.push(user(user_name(&name), &[beq(0, 0, 4), word]).image());
    }
    images.push(
        user("stop-17-eret-in-user-mode-with-cu0", &[beq(0, 0, 4), ERET])
            .cp0(number::STATUS, 0x1000_0010)
            .image(),
    );
    for (name, word) in [("reserved", 0x7c00_0000), ("unusable", 0x4400_0000), ("syscall", SYSCALL)]
    {
        images.push(
            Draft::kernel(format!("no-stop-17-{name}-in-a-slot"))
                .code(&[beq(0, 0, 4), word])
                .image(),
        );
    }
    images
}

/// Drafts moves of values that are not built, and of their neighbours that are.
fn values_not_built() -> Vec<Image> {
    let mut images = Vec::new();
    for bit in 0..32 {
        for (kind, word) in [("mtc0", mtc0(1, number::STATUS)), ("dmtc0", dmtc0(1, number::STATUS))]
        {
            if [3, 5, 6, 7, 25, 29, 30, 31].contains(&bit) {
                images.push(
                    Draft::kernel(format!("stop-18-status-bit-{bit}-{kind}"))
                        .reg(1, 2 | 1 << bit)
                        .code(&[NOP, word])
                        .image(),
                );
            }
        }
        images.push(
            Draft::kernel(format!("stop-18-mask-bit-{bit}"))
                .reg(1, 1 << bit)
                .code(&[NOP, mtc0(1, number::PAGE_MASK)])
                .image(),
        );
    }
    for ones in 0..=13u32 {
        for (kind, word) in
            [("mtc0", mtc0(1, number::PAGE_MASK)), ("dmtc0", dmtc0(1, number::PAGE_MASK))]
        {
            images.push(
                Draft::kernel(format!("mask-of-{ones}-ones-{kind}"))
                    .reg(1, ((1u64 << ones) - 1) << 13)
                    .code(&[NOP, word])
                    .image(),
            );
        }
    }
    for (name, mask) in
        [("gap", 0x1_8000u64), ("two-runs", 0x1e_6000), ("below", 0x7000), ("above", 0x200_6000)]
    {
        images.push(
            Draft::kernel(format!("stop-18-mask-{name}"))
                .reg(1, mask)
                .code(&[NOP, mtc0(1, number::PAGE_MASK)])
                .image(),
        );
    }
    for (name, value) in [("ksu-3", 0x18u64), ("ksu-1", 0x08)] {
        images.push(
            Draft::kernel(format!("stop-18-status-{name}"))
                .reg(1, value)
                .code(&[NOP, mtc0(1, number::STATUS)])
                .image(),
        );
    }
    images
}

/// Drafts what usability and width check before a stop 18, and what it looks at.
fn around_not_built() -> Vec<Image> {
    let move_to_status = mtc0(1, number::STATUS);
    vec![
        Draft::kernel("high-word-of-status-is-not-looked-at")
            .reg(1, 0xffff_ffff_0000_0000)
            .code(&[move_to_status, dmtc0(1, number::STATUS), dmtc0(1, number::PAGE_MASK)])
            .image(),
        user("cpu-before-stop-18", &[move_to_status]).reg(1, 8).image(),
        user("stop-18-in-user-mode-with-cu0", &[move_to_status])
            .cp0(number::STATUS, 0x1000_0010)
            .reg(1, 8)
            .image(),
        user("ri-before-stop-18", &[dmtc0(1, number::STATUS)])
            .cp0(number::STATUS, 0x1000_0010)
            .reg(1, 8)
            .image(),
        Draft::kernel("stop-18-in-a-slot").reg(1, 8).code(&[beq(0, 0, 4), move_to_status]).image(),
    ]
}

/// Gives all images of this subject.
pub fn images() -> Vec<Image> {
    let mut images = double_matches();
    images.extend(branches_in_slots());
    images.extend(values_not_built());
    images.extend(around_not_built());
    images
}

#[cfg(test)]
mod tests {
    use super::*;
    use crate::answer::whole_answer;

    #[test]
    fn names_that_promise_a_stop_keep_it() {
        for image in images() {
            let answer = whole_answer(&image.text, 0, &[]);
            for (prefix, number) in [("stop-16", "0f10"), ("stop-17", "0f11"), ("stop-18", "0f12")]
            {
                let promised = image.name.starts_with(prefix)
                    && !image.name.contains("-not-for-")
                    && !image.name.contains("-not-when-")
                    && !image.name.contains("-not-under-")
                    && !image.name.contains("-not-before-");
                if promised {
                    assert!(answer.starts_with(number), "{}", image.name);
                }
            }
            if image.name.starts_with("no-stop") || image.name.contains("-not-for-") {
                assert!(answer.starts_with("0f00"), "{}", image.name);
            }
        }
    }
}
