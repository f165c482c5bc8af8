//! Parts that many curated images share.

use crate::assemble::*;
use crate::cp0::number;
use crate::draft::Draft;

/// The virtual address of the User program's page.
pub const USER_CODE: u64 = 0x0040_0000;
/// The virtual address of the User program's data page.
pub const USER_DATA: u64 = 0x0040_1000;
/// The physical address of the User program's page.
pub const USER_CODE_AT: u32 = 0x2000;
/// The physical address of the User program's data page.
pub const USER_DATA_AT: u32 = 0x3000;
/// Status of a User program.
pub const USER_STATUS: u64 = 0x10;
/// A doubleword with eight different bytes.
pub const PATTERN: u64 = 0x8192_a3b4_c5d6_e7f8;
/// Another one.
pub const OTHER: u64 = 0x1122_3344_5566_7788;

/// A handler that counts in r23, keeps Cause in r22 and returns past the instruction.
const SKIP: [u32; 6] = [
    0x401a_7000, // mfc0 r26, EPC
    0x275a_0004, // addiu r26, r26, 4
    0x409a_7000, // mtc0 r26, EPC
    0x4016_6800, // mfc0 r22, Cause
    0x26f7_0001, // addiu r23, r23, 1
    ERET,
];

/// The steps of one exception with the skipping handler.
pub const SKIP_STEPS: u32 = 7;

/// Puts the skipping handler at both vectors in RAM.
pub fn skipping(draft: Draft) -> Draft {
    draft.words(0x000, &SKIP).words(0x180, &SKIP)
}

/// Starts a draft of a User program with a page of code and a page of data.
pub fn user(name: impl Into<String>, code: &[u32]) -> Draft {
    let draft = Draft::fresh(name)
        .cp0(number::STATUS, USER_STATUS)
        .slot(0, [0, USER_CODE as u32, frame(USER_CODE_AT, 6), frame(USER_DATA_AT, 6)])
        .pc(USER_CODE)
        .words(USER_CODE_AT, code);
    skipping(draft).budget(code.len() as u32)
}

/// Gives an EntryLo value for a physical address and low bits.
pub fn frame(physical: u32, bits: u32) -> u32 {
    physical >> 12 << 6 | bits
}

/// A stop that ends a program of unknown length: a branch in a slot.
pub const END: [u32; 2] = [0x1000_ffff, 0x1000_ffff];

#[cfg(test)]
mod tests {
    use super::*;

    #[test]
    fn the_handler_is_what_its_comments_say() {
        let words = [
            mfc0(26, number::EPC),
            addiu(26, 26, 4),
            mtc0(26, number::EPC),
            mfc0(22, number::CAUSE),
            addiu(23, 23, 1),
            ERET,
        ];
        assert_eq!(SKIP, words);
        assert_eq!(frame(0x2000, 6), 0x86);
    }
}
