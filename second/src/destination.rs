//! The words of an image, and the general register that a word names as its destination.

use crate::decode::decode;
use crate::draft::CODE;
use crate::image::{read, RAM_LENGTH};
use crate::instruction::{Code, Instruction as I, Store};
use crate::many::Image;

/// The bytes looked at from the code's place on.
const LENGTH: usize = 0x200;

/// Gives the words at the code's place of an image, or none if it is refused.
pub fn words_of(image: &Image) -> Vec<u32> {
    let mut ram = vec![0; RAM_LENGTH];
    if read(&image.text, &mut ram).is_err() {
        return Vec::new();
    }
    let code = &ram[CODE as usize..][..LENGTH];
    code.chunks_exact(4).map(|four| u32::from_be_bytes(four.try_into().unwrap())).collect()
}

/// Gives the destination of a word, if it names one.
pub fn destination(word: u32) -> Option<usize> {
    let code = Code(word);
    match decode(code) {
        I::Register(_)
        | I::Shift(..)
        | I::ShiftVariable(_)
        | I::MoveFromHi
        | I::MoveFromLo
        | I::JumpRegister { link: true } => Some(code.rd()),
        I::Immediate(_)
        | I::ImmediateUnsigned(_)
        | I::LoadUpper
        | I::Load(_)
        | I::Store(Store::Conditional | Store::ConditionalDouble)
        | I::MoveFromCp0 { .. } => Some(code.rt()),
        _ => None,
    }
}

/// Gives a word of every entry of the maps that names a destination, which is r0.
pub fn all_to_r0() -> Vec<u32> {
    let majors = (1..64).filter(|opcode| *opcode != 0x10).map(|opcode| opcode << 26);
    let moves = (0..32).map(|code| 0x4000_0000 | code << 21);
    majors.chain(0..64).chain(moves).filter(|word| destination(*word).is_some()).collect()
}

#[test]
fn destinations_are_counted_and_cut_out() {
    // Immediates, loads, SC and SCD; sums and logic, shifts, MFHI, MFLO and JALR; MFC0 and DMFC0.
    assert_eq!(all_to_r0().len(), (10 + 13 + 2) + (14 + 15 + 3) + 2);
    assert_eq!(destination(0x0108_4821), Some(9));
    assert_eq!(destination(0x2408_0005), Some(8));
    assert_eq!(destination(0xad09_0000), None);
}
