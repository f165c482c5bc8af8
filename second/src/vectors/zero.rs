//! r0 as the destination of instructions, with its value shown after each.

use super::common::{frame, skipping, OTHER, PATTERN, SKIP_STEPS};
use crate::assemble::*;
use crate::cp0::number;
use crate::draft::{Draft, RAM_HIGH};
use crate::many::Image;

const LLD: u32 = 0x34;
const SCD: u32 = 0x3c;

/// The physical address of the data.
const DATA: u32 = 0x4000;
/// The physical address of the places where the destination is stored.
const SHOWN: u32 = 0x5000;

/// Gives words whose result is not zero, by name of their image and with one destination for all.
fn writing(to: u32) -> Vec<(&'static str, Vec<u32>)> {
    let register = |function| special(function, 1, 2, to, 0);
    let shift = |function| special(function, 0, 2, to, 3);
    let value = |opcode| immediate(opcode, 3, to, 0xffff);
    let load = |opcode| access(opcode, to, 0, 10);
    vec![
        // ADDU ADDIU LUI SLL LD MFC0 JALR
        (
            "r0-stays-zero",
            vec![
                register(0x21),
                addiu(to, 1, 5),
                lui(to, 0x1234),
                shift(0x00),
                ld(to, 0, 10),
                mfc0(to, number::PRID),
                special(0x09, 11, 0, to, 0),
            ],
        ),
        // ADD SUB SUBU DADD DADDU DSUB DSUBU
        ("r0-sums", [0x20, 0x22, 0x23, 0x2c, 0x2d, 0x2e, 0x2f].map(register).to_vec()),
        // AND OR XOR NOR SLT SLTU
        ("r0-logic-and-compares", [0x24, 0x25, 0x26, 0x27, 0x2a, 0x2b].map(register).to_vec()),
        // SLLV SRLV SRAV DSLLV DSRLV DSRAV
        ("r0-variable-shifts", [0x04, 0x06, 0x07, 0x14, 0x16, 0x17].map(register).to_vec()),
        // SRL SRA DSLL DSRL DSRA DSLL32 DSRL32 DSRA32
        ("r0-shifts", [0x02, 0x03, 0x38, 0x3a, 0x3b, 0x3c, 0x3e, 0x3f].map(shift).to_vec()),
        // ADDI SLTI SLTIU ANDI ORI XORI DADDI DADDIU
        ("r0-immediates", [0x08, 0x0a, 0x0b, 0x0c, 0x0d, 0x0e, 0x18, 0x19].map(value).to_vec()),
        // LB LBU LH LHU LW LWU
        ("r0-loads", [0x20, 0x24, 0x21, 0x25, 0x23, 0x27].map(load).to_vec()),
        ("r0-lld-scd", [LLD, SCD].map(load).to_vec()),
        ("r0-dmfc0", vec![dmfc0(to, number::ERROR_EPC)]),
    ]
}

/// Gives words that raise an exception and write nothing.
fn raising() -> Vec<(&'static str, Vec<u32>)> {
    vec![
        // ADD SUB DADD DSUB ADDI DADDI
        (
            "r0-overflows",
            vec![
                special(0x20, 4, 4, 0, 0),
                special(0x22, 5, 4, 0, 0),
                special(0x2c, 6, 6, 0, 0),
                special(0x2e, 7, 6, 0, 0),
                immediate(0x08, 4, 0, 1),
                immediate(0x18, 6, 0, 1),
            ],
        ),
        // LH unaligned, LW wide, LBU without a slot, LWL from an invalid page, LD from nowhere
        (
            "r0-faulting-loads",
            vec![
                access(0x21, 0, 1, 10),
                lw(0, 0, 13),
                access(0x24, 0, 0, 14),
                access(0x22, 0, 0, 15),
                ld(0, 0, 16),
            ],
        ),
    ]
}

/// Drafts words that are each followed by a store of their destination over a mark.
fn shown(name: &str, words: &[u32], to: u32) -> Draft {
    let mut draft = skipping(Draft::kernel(name));
    let mut code = Vec::new();
    for (place, word) in words.iter().enumerate() {
        let offset = 8 * place as u32;
        code.extend([*word, sd(to, offset, 12)]);
        draft = draft.data(SHOWN + offset, OTHER);
    }
    draft
        .cp0(number::ERROR_EPC, PATTERN)
        .slot(0, [0, 0x0040_0000, frame(DATA, 4), 0])
        .data(DATA, PATTERN)
        .reg(1, 0x0123_4567_1234_5678)
        .reg(2, 0x2345_6789_2345_6789)
        .reg(3, 0xffff_ffff_ffff_fff9)
        .reg(4, 0x7fff_ffff)
        .reg(5, 0xffff_ffff_8000_0000)
        .reg(6, 0x7fff_ffff_ffff_ffff)
        .reg(7, 0x8000_0000_0000_0000)
        .reg(10, RAM_HIGH + DATA as u64)
        .reg(11, RAM_HIGH + 0x1100)
        .reg(12, RAM_HIGH + SHOWN as u64)
        .reg(13, 0x8000_0000)
        .reg(14, 0x0070_0000)
        .reg(15, 0x0040_0000)
        .reg(16, 0xffff_ffff_a001_0000)
        .code(&code)
}

/// Gives all images of this subject.
pub fn images() -> Vec<Image> {
    let mut images = Vec::new();
    for (name, words) in writing(0) {
        images.push(shown(name, &words, 0).image());
    }
    let failing = [access(SCD, 0, 0, 10)];
    images.push(shown("r0-scd-without-link", &failing, 0).image());
    for (name, words) in raising() {
        let steps = words.len() as u32 * (SKIP_STEPS + 1);
        images.push(shown(name, &words, 0).budget(steps).image());
    }
    images
}

#[cfg(test)]
mod tests {
    use super::*;
    use crate::answer::whole_answer;

    /// Gives the doublewords stored that are not zero.
    fn stored(answer: &str) -> Vec<&str> {
        let start = format!("02{:06x}", SHOWN >> 8);
        answer.lines().filter(|line| line.starts_with(&start)).map(|line| &line[10..]).collect()
    }

    #[test]
    fn zeros_are_stored_after_every_word() {
        for image in images() {
            let answer = whole_answer(&image.text, 0, &[]);
            assert!(answer.starts_with("0f00"), "{}", image.name);
            assert!(answer.contains("\n01000000000000000000\n"), "{}", image.name);
            assert_eq!(stored(&answer), Vec::<&str>::new(), "{}", image.name);
            let raised = raising().into_iter().find(|(name, _)| *name == image.name);
            let count = raised.map_or(0, |(_, words)| words.len());
            assert!(answer.contains(&format!("\n0117{count:016x}\n")), "{}", image.name);
        }
    }

    #[test]
    fn the_same_words_leave_another_register_not_zero() {
        let mark = format!("{OTHER:016x}");
        for (name, words) in writing(9) {
            for word in words {
                // The first store shows that r9 is zero before the word; SCD needs the link.
                let draft = shown(name, &[access(LLD, 8, 0, 10), word], 9);
                let answer = whole_answer(draft.text().as_bytes(), 0, &[]);
                let values = stored(&answer);
                assert!(values.len() == 1 && values[0] != mark, "{name} {word:08x}");
            }
        }
    }
}
