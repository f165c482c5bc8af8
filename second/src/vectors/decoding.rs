//! The whole decoding maps, a row of eight codes to an image.

use super::common::{skipping, USER_CODE_AT};
use super::common::{user, PATTERN, SKIP_STEPS, USER_CODE, USER_DATA, USER_DATA_AT};
use crate::assemble::*;
use crate::cp0::number;
use crate::draft::{Draft, CODE, CODE_HIGH, RAM_HIGH};
use crate::many::Image;

/// The situations in which a row runs.
const SITUATIONS: [&str; 3] = ["kernel", "user", "user-cu0"];

/// Drafts a row: each word is followed by a NOP, and no branch goes farther than that.
fn row(name: &str, situation: &str, words: impl Fn(u64) -> Vec<u32>) -> Image {
    let name = format!("{name}-{situation}");
    let kernel = situation == "kernel";
    let start = if kernel { CODE_HIGH } else { USER_CODE };
    let code: Vec<u32> = words(start).into_iter().flat_map(|word| [word, NOP]).collect();
    let budget = code.len() as u32 + 8 * SKIP_STEPS;
    let (draft, data, at) = if kernel {
        (skipping(Draft::kernel(name)).words(CODE, &code), RAM_HIGH + USER_DATA_AT as u64, CODE)
    } else {
        (user(name, &code), USER_DATA, USER_CODE_AT)
    };
    assert!(at + 4 * code.len() as u32 <= at + 0x1000);
    let draft =
        if situation == "user-cu0" { draft.cp0(number::STATUS, 0x1000_0010) } else { draft };
    draft
        .cp0(number::INDEX, 63)
        .cp0(number::EPC, start + 8)
        .cp0(number::ERROR_EPC, start + 8)
        .data(USER_DATA_AT, PATTERN)
        .data(USER_DATA_AT + 8, !PATTERN)
        .reg(1, data)
        .reg(2, 0x1234)
        .reg(24, start + 8)
        .reg(25, start + 16)
        .budget(budget)
        .image()
}

/// Gives the word of a major opcode at a place of its row.
fn major(opcode: u32, start: u64, place: u32) -> u32 {
    let next = ((start as u32) + 8 * place + 8) >> 2;
    match opcode {
        0x02 | 0x03 => jump(opcode, next),
        0x00 | 0x01 | 0x04..=0x07 | 0x14..=0x17 => immediate(opcode, 1, 2, 1),
        0x10 => mfc0(2, number::PRID),
        _ => immediate(opcode, 1, 2, 8),
    }
}

/// Gives the word of a SPECIAL function, with its spare fields empty or full.
fn special_word(function: u32, loose: bool) -> u32 {
    let rs = match function {
        0x08 => 24,
        0x09 => 25,
        _ => 1,
    };
    special(function, rs, 2, 3, if loose { 31 } else { 0 })
}

/// Gives all images of this subject.
pub fn images() -> Vec<Image> {
    let mut images = Vec::new();
    for situation in SITUATIONS {
        for first in (0..64).step_by(8) {
            images.push(row(&format!("opcodes-{first:02x}"), situation, |start| {
                (0..8).map(|place| major(first + place, start, place)).collect()
            }));
            for (kind, loose) in [("special", false), ("special-loose", true)] {
                images.push(row(&format!("{kind}-{first:02x}"), situation, |_| {
                    (0..8).map(|place| special_word(first + place, loose)).collect()
                }));
            }
            images.push(row(&format!("cop0-functions-{first:02x}"), situation, |_| {
                (0..8).map(|place| cp0_function(first + place)).collect()
            }));
        }
        for first in (0..32).step_by(8) {
            images.push(row(&format!("regimm-{first:02x}"), situation, |_| {
                (0..8).map(|place| regimm(first + place, 1, 1)).collect()
            }));
            images.push(row(&format!("cop0-codes-{first:02x}"), situation, |_| {
                (0..8).map(|place| cp0_move(first + place, 2, number::TAG_LO)).collect()
            }));
        }
    }
    images
}

#[cfg(test)]
mod tests {
    use super::*;
    use crate::answer::whole_answer;

    /// Gives the number of exceptions counted in r23 of an image's answer.
    fn exceptions(name: &str) -> u64 {
        let image = images().into_iter().find(|image| image.name == name).unwrap();
        let answer = whole_answer(&image.text, 0, &[]);
        assert!(answer.starts_with("0f00"), "{name}");
        let at = answer.find("\n0117").unwrap();
        u64::from_str_radix(&answer[at + 5..at + 21], 16).unwrap()
    }

    #[test]
    fn rows_raise_as_many_exceptions_as_they_should() {
        assert_eq!(exceptions("opcodes-00-kernel"), 1);
        assert_eq!(exceptions("opcodes-18-kernel"), 4);
        assert_eq!(exceptions("opcodes-18-user"), 8);
        assert_eq!(exceptions("opcodes-20-kernel"), 0);
        assert_eq!(exceptions("opcodes-20-user"), 1);
        assert_eq!(exceptions("opcodes-28-user"), 3);
        assert_eq!(exceptions("opcodes-28-user-cu0"), 2);
        assert_eq!(exceptions("regimm-18-kernel"), 8);
        assert_eq!(exceptions("cop0-functions-00-kernel"), 5);
        assert_eq!(exceptions("cop0-functions-00-user"), 8);
        assert_eq!(exceptions("cop0-functions-00-user-cu0"), 5);
        assert_eq!(exceptions("cop0-codes-00-user-cu0"), 6);
    }
}
