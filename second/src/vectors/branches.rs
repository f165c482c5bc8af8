//! Branches and jumps, taken and not, with their slots and links.

use super::common::{frame, skipping};
use crate::assemble::*;
use crate::draft::{Draft, CODE_HIGH, RAM_HIGH};
use crate::many::Image;

/// Branches by name and word, with registers r1 and r2 and no distance.
fn branches() -> Vec<(&'static str, u32)> {
    vec![
        ("beq", immediate(0x04, 1, 2, 0)),
        ("bne", immediate(0x05, 1, 2, 0)),
        ("blez", immediate(0x06, 1, 0, 0)),
        ("bgtz", immediate(0x07, 1, 0, 0)),
        ("beql", immediate(0x14, 1, 2, 0)),
        ("bnel", immediate(0x15, 1, 2, 0)),
        ("blezl", immediate(0x16, 1, 0, 0)),
        ("bgtzl", immediate(0x17, 1, 0, 0)),
        ("bltz", regimm(0x00, 1, 0)),
        ("bgez", regimm(0x01, 1, 0)),
        ("bltzl", regimm(0x02, 1, 0)),
        ("bgezl", regimm(0x03, 1, 0)),
        ("bltzal", regimm(0x10, 1, 0)),
        ("bgezal", regimm(0x11, 1, 0)),
        ("bltzall", regimm(0x12, 1, 0)),
        ("bgezall", regimm(0x13, 1, 0)),
        ("blez-with-rt", immediate(0x06, 1, 2, 0)),
        ("bgtz-with-rt", immediate(0x07, 1, 2, 0)),
        ("blezl-with-rt", immediate(0x16, 1, 2, 0)),
        ("bgtzl-with-rt", immediate(0x17, 1, 2, 0)),
    ]
}

/// Pairs of operands of a branch.
const PAIRS: [(u64, u64); 7] = [
    (0, 0),
    (1, 1),
    (0xffff_ffff_ffff_ffff, 1),
    (0x8000_0000, 0xffff_ffff_8000_0000),
    (0x1_0000_0000, 0),
    (0x8000_0000_0000_0000, 0x7fff_ffff_ffff_ffff),
    (0x7fff_ffff_ffff_ffff, 0x7fff_ffff_ffff_ffff),
];

/// Drafts a branch over all pairs: r5 marks slots run, r6 marks ways past the branch.
fn over_pairs(name: &str, word: u32) -> Image {
    let mut code = Vec::new();
    for place in 0..PAIRS.len() as u32 {
        code.extend_from_slice(&[
            ld(1, 16 * place, 10),
            ld(2, 16 * place + 8, 10),
            word | 2,
            ori(5, 5, 1 << place),
            ori(6, 6, 1 << place),
            copy(11 + place, 31),
        ]);
    }
    let mut draft = Draft::kernel(name).reg(10, RAM_HIGH + 0x4000).reg(31, 5).code(&code);
    for (place, (a, b)) in PAIRS.iter().enumerate() {
        let at = 0x4000 + 16 * place as u32;
        draft = draft.data(at, *a).data(at + 8, *b);
    }
    draft.budget(6 * PAIRS.len() as u32 - 3).image()
}

/// Gives images of a branch stopped right after it, so that its slot is pending.
fn pending(name: &str, word: u32) -> Vec<Image> {
    [("minus", u64::MAX), ("zero", 0), ("plus", 1)]
        .iter()
        .map(|(kind, value)| {
            Draft::kernel(format!("{name}-pending-{kind}"))
                .reg(1, *value)
                .code(&[word | 0x8000, NOP])
                .budget(1)
                .image()
        })
        .collect()
}

/// Gives images of AND-LINK branches and JALR that read the register they write.
fn linking_their_source() -> Vec<Image> {
    let mut images = Vec::new();
    for (name, sub) in [("bltzal", 0x10), ("bgezal", 0x11), ("bltzall", 0x12), ("bgezall", 0x13)] {
        for (kind, value) in [("minus", u64::MAX), ("plus", 5)] {
            let code = [regimm(sub, 31, 4), addiu(5, 31, 1), ori(6, 0, 1)];
            images.push(
                Draft::kernel(format!("{name}-reads-r31-{kind}"))
                    .reg(31, value)
                    .code(&code)
                    .image(),
            );
        }
    }
    for rd in [0, 5, 31] {
        let code = [special(0x09, 5, 0, rd, 0), copy(6, rd), NOP];
        images.push(
            Draft::kernel(format!("jalr-rs5-rd{rd}")).reg(5, CODE_HIGH + 0x40).code(&code).image(),
        );
    }
    images
}

/// Gives images of the jumps, over the edge of a region too.
fn jumps() -> Vec<Image> {
    let inside = (0x1040 >> 2) & 0x03ff_ffff;
    let mut images = Vec::new();
    for (name, opcode) in [("j", 2), ("jal", 3)] {
        let code = [jump(opcode, inside), ori(5, 0, 7), ori(6, 0, 7)];
        images.push(Draft::kernel(name).code(&code).image());
        images.push(Draft::kernel(format!("{name}-pending")).code(&code).budget(1).image());
        let farthest = [jump(opcode, 0x03ff_ffff), NOP, NOP];
        images.push(
            Draft::kernel(format!("{name}-to-the-end-of-its-region")).code(&farthest).image(),
        );
        images.push(
            skipping(Draft::kernel(format!("{name}-over-a-region-edge")))
                .slot(0, [0, 0x0fff_e000, 0, frame(0x2000, 2)])
                .slot(1, [0, 0x1000_0000, frame(0x3000, 2), 0])
                .words(0x2ffc, &[jump(opcode, 4)])
                .words(0x3000, &[ori(5, 0, 7), NOP, NOP, NOP, ori(6, 0, 9)])
                .pc(0x0fff_fffc)
                .budget(3)
                .image(),
        );
    }
    for (name, target) in [
        ("unaligned", CODE_HIGH + 2),
        ("wide", 0x1_8000_1000),
        ("unmapped", 0x0040_0000),
        ("uncached", 0xffff_ffff_a000_1040),
        ("nowhere", 0xffff_ffff_a001_0000),
        ("most-positive", 0x7fff_ffff_ffff_fffc),
    ] {
        let code = [jr(1), ori(5, 0, 7), NOP];
        images.push(Draft::kernel(format!("jr-{name}")).reg(1, target).code(&code).image());
    }
    images
}

/// Gives images of branches at the ends of the address space and with far distances.
fn far() -> Vec<Image> {
    let mut images = Vec::new();
    for (name, distance) in [("forth", 0x7fff), ("back", -0x8000), ("self", -1), ("next", 0)] {
        let code = [beq(0, 0, distance), addiu(5, 5, 1)];
        images.push(Draft::kernel(format!("beq-{name}")).code(&code).image());
    }
    images.push(
        Draft::kernel("branch-at-the-last-word-of-the-address-space")
            .slot(0, [0, 0xffff_e000, 0, frame(0x2000, 2)])
            .slot(1, [0, 0, frame(0x3000, 2), 0])
            .words(0x2ffc, &[regimm(0x11, 0, 4)])
            .words(0x3000, &[ori(5, 0, 7), NOP, NOP, NOP, ori(6, 0, 9)])
            .pc(0xffff_ffff_ffff_fffc)
            .budget(3)
            .image(),
    );
    images.push(
        Draft::kernel("nop-at-the-last-word-of-the-address-space")
            .slot(0, [0, 0xffff_e000, 0, frame(0x2000, 2)])
            .slot(1, [0, 0, frame(0x3000, 2), 0])
            .words(0x3000, &[ori(5, 0, 7)])
            .pc(0xffff_ffff_ffff_fffc)
            .budget(2)
            .image(),
    );
    images
}

/// Gives images of exceptions whose slot belongs to a branch not taken or a jump.
fn slots_with_exceptions() -> Vec<Image> {
    let mut images = Vec::new();
    let kinds = [
        ("bne-not-taken", bne(0, 0, 8)),
        ("beql-taken", immediate(0x14, 0, 0, 8)),
        ("j", jump(2, 0x500)),
        ("jal", jump(3, 0x500)),
        ("jr", jr(1)),
        ("jalr", special(0x09, 1, 0, 31, 0)),
        ("bgezal", regimm(0x11, 0, 8)),
    ];
    for (name, word) in kinds {
        images.push(
            Draft::kernel(format!("syscall-in-the-slot-of-{name}"))
                .reg(1, CODE_HIGH + 0x80)
                .code(&[word, SYSCALL])
                .image(),
        );
    }
    images
}

/// Gives all images of this subject.
pub fn images() -> Vec<Image> {
    let mut images = Vec::new();
    for (name, word) in branches() {
        images.push(over_pairs(&format!("{name}-over-pairs"), word));
    }
    for (name, word) in branches().into_iter().take(16) {
        images.extend(pending(name, word));
    }
    images.extend(linking_their_source());
    images.extend(jumps());
    images.extend(far());
    images.extend(slots_with_exceptions());
    images
}

#[cfg(test)]
mod tests {
    use super::*;
    use crate::answer::short_answer;

    #[test]
    fn a_likely_branch_skips_slots_that_a_plain_one_runs() {
        let find = |name: &str| {
            let image = images().into_iter().find(|image| image.name == name).unwrap();
            short_answer(&image.text)
        };
        // Pairs 0, 1 and 6 are equal.
        assert!(find("beql-over-pairs").contains("\n01050000000000000043\n"));
        assert!(find("beq-over-pairs").contains("\n0105000000000000007f\n"));
        assert!(find("beq-over-pairs").contains("\n0106000000000000003c\n"));
    }
}
