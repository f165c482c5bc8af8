//! The decoding maps: from instruction words to instructions.

use crate::instruction::{Alu, Code, Instruction, Load, MulDiv, Shift, Store, Test};

use Instruction as I;

/// Decodes an instruction word.
pub fn decode(code: Code) -> Instruction {
    match code.opcode() {
        0x00 => decode_special(code.function()),
        0x01 => decode_regimm(code.rt() as u32),
        0x02 => I::Jump { link: false },
        0x03 => I::Jump { link: true },
        0x04 => branch(Test::Equal),
        0x05 => branch(Test::NotEqual),
        0x06 => branch(Test::LessEqualZero),
        0x07 => branch(Test::GreaterZero),
        0x08 => I::Immediate(Alu::Add),
        0x09 => I::Immediate(Alu::Addu),
        0x0a => I::Immediate(Alu::Slt),
        0x0b => I::Immediate(Alu::Sltu),
        0x0c => I::ImmediateUnsigned(Alu::And),
        0x0d => I::ImmediateUnsigned(Alu::Or),
        0x0e => I::ImmediateUnsigned(Alu::Xor),
        0x0f => I::LoadUpper,
        0x10 => decode_cp0(code),
        0x11 => I::Unusable(1),
        0x12 => I::Unusable(2),
        0x14 => likely(Test::Equal),
        0x15 => likely(Test::NotEqual),
        0x16 => likely(Test::LessEqualZero),
        0x17 => likely(Test::GreaterZero),
        0x18 => I::Immediate(Alu::Dadd),
        0x19 => I::Immediate(Alu::Daddu),
        0x1a => I::Load(Load::DoubleLeft),
        0x1b => I::Load(Load::DoubleRight),
        0x20 => I::Load(Load::Byte),
        0x21 => I::Load(Load::Half),
        0x22 => I::Load(Load::WordLeft),
        0x23 => I::Load(Load::Word),
        0x24 => I::Load(Load::ByteUnsigned),
        0x25 => I::Load(Load::HalfUnsigned),
        0x26 => I::Load(Load::WordRight),
        0x27 => I::Load(Load::WordUnsigned),
        0x28 => I::Store(Store::Byte),
        0x29 => I::Store(Store::Half),
        0x2a => I::Store(Store::WordLeft),
        0x2b => I::Store(Store::Word),
        0x2c => I::Store(Store::DoubleLeft),
        0x2d => I::Store(Store::DoubleRight),
        0x2e => I::Store(Store::WordRight),
        0x2f => I::Cache,
        0x30 => I::Load(Load::Linked),
        0x31 | 0x35 | 0x39 | 0x3d => I::Unusable(1),
        0x32 | 0x36 | 0x3a | 0x3e => I::Unusable(2),
        0x34 => I::Load(Load::LinkedDouble),
        0x37 => I::Load(Load::Double),
        0x38 => I::Store(Store::Conditional),
        0x3c => I::Store(Store::ConditionalDouble),
        0x3f => I::Store(Store::Double),
        _ => I::Reserved,
    }
}

/// Gives a plain branch on a condition.
fn branch(test: Test) -> Instruction {
    I::Branch { test, likely: false, link: false }
}

/// Gives a likely branch on a condition.
fn likely(test: Test) -> Instruction {
    I::Branch { test, likely: true, link: false }
}

/// Decodes the function field of SPECIAL.
fn decode_special(function: u32) -> Instruction {
    match function {
        0x00 => I::Shift(Shift::LeftWord, 0),
        0x02 => I::Shift(Shift::RightWord, 0),
        0x03 => I::Shift(Shift::SignedWord, 0),
        0x04 => I::ShiftVariable(Shift::LeftWord),
        0x06 => I::ShiftVariable(Shift::RightWord),
        0x07 => I::ShiftVariable(Shift::SignedWord),
        0x08 => I::JumpRegister { link: false },
        0x09 => I::JumpRegister { link: true },
        0x0c => I::SystemCall,
        0x0d => I::Breakpoint,
        0x0f => I::Sync,
        0x10 => I::MoveFromHi,
        0x11 => I::MoveToHi,
        0x12 => I::MoveFromLo,
        0x13 => I::MoveToLo,
        0x14 => I::ShiftVariable(Shift::LeftDouble),
        0x16 => I::ShiftVariable(Shift::RightDouble),
        0x17 => I::ShiftVariable(Shift::SignedDouble),
        0x18 => I::MulDiv(MulDiv::Mult),
        0x19 => I::MulDiv(MulDiv::Multu),
        0x1a => I::MulDiv(MulDiv::Div),
        0x1b => I::MulDiv(MulDiv::Divu),
        0x1c => I::MulDiv(MulDiv::Dmult),
        0x1d => I::MulDiv(MulDiv::Dmultu),
        0x1e => I::MulDiv(MulDiv::Ddiv),
        0x1f => I::MulDiv(MulDiv::Ddivu),
        0x20 => I::Register(Alu::Add),
        0x21 => I::Register(Alu::Addu),
        0x22 => I::Register(Alu::Sub),
        0x23 => I::Register(Alu::Subu),
        0x24 => I::Register(Alu::And),
        0x25 => I::Register(Alu::Or),
        0x26 => I::Register(Alu::Xor),
        0x27 => I::Register(Alu::Nor),
        0x2a => I::Register(Alu::Slt),
        0x2b => I::Register(Alu::Sltu),
        0x2c => I::Register(Alu::Dadd),
        0x2d => I::Register(Alu::Daddu),
        0x2e => I::Register(Alu::Dsub),
        0x2f => I::Register(Alu::Dsubu),
        0x30 => I::Trap(Test::GreaterEqual),
        0x31 => I::Trap(Test::GreaterEqualUnsigned),
        0x32 => I::Trap(Test::Less),
        0x33 => I::Trap(Test::LessUnsigned),
        0x34 => I::Trap(Test::Equal),
        0x36 => I::Trap(Test::NotEqual),
        0x38 => I::Shift(Shift::LeftDouble, 0),
        0x3a => I::Shift(Shift::RightDouble, 0),
        0x3b => I::Shift(Shift::SignedDouble, 0),
        0x3c => I::Shift(Shift::LeftDouble, 32),
        0x3e => I::Shift(Shift::RightDouble, 32),
        0x3f => I::Shift(Shift::SignedDouble, 32),
        _ => I::Reserved,
    }
}

/// Decodes the rt field of REGIMM.
fn decode_regimm(rt: u32) -> Instruction {
    match rt {
        0x00..=0x03 | 0x10..=0x13 => I::Branch {
            test: if rt & 1 == 0 { Test::LessZero } else { Test::GreaterEqualZero },
            likely: rt & 2 != 0,
            link: rt & 0x10 != 0,
        },
        0x08 => I::TrapImmediate(Test::GreaterEqual),
        0x09 => I::TrapImmediate(Test::GreaterEqualUnsigned),
        0x0a => I::TrapImmediate(Test::Less),
        0x0b => I::TrapImmediate(Test::LessUnsigned),
        0x0c => I::TrapImmediate(Test::Equal),
        0x0e => I::TrapImmediate(Test::NotEqual),
        _ => I::Reserved,
    }
}

/// Decodes a COP0 word.
fn decode_cp0(code: Code) -> Instruction {
    match code.rs() {
        0 => I::MoveFromCp0 { double: false },
        1 => I::MoveFromCp0 { double: true },
        4 => I::MoveToCp0 { double: false },
        5 => I::MoveToCp0 { double: true },
        16..=31 => match code.function() {
            0x01 => I::TlbRead,
            0x02 => I::TlbWriteIndex,
            0x06 => I::TlbWriteRandom,
            0x08 => I::TlbProbe,
            0x18 => I::ErrorReturn,
            _ => I::ReservedCp0,
        },
        _ => I::ReservedCp0,
    }
}

#[cfg(test)]
mod tests {
    use super::*;

    /// Counts the reserved entries of a map.
    fn reserved(codes: impl Iterator<Item = u32>) -> Vec<u32> {
        codes
            .enumerate()
            .filter(|(_, code)| decode(Code(*code)) == I::Reserved)
            .map(|(place, _)| place as u32)
            .collect()
    }

    #[test]
    fn reserved_entries_of_the_three_maps() {
        assert_eq!(
            reserved((0..64).map(|opcode| opcode << 26)),
            [0x13, 0x1c, 0x1d, 0x1e, 0x1f, 0x33, 0x3b]
        );
        assert_eq!(
            reserved(0..64),
            [0x01, 0x05, 0x0a, 0x0b, 0x0e, 0x15, 0x28, 0x29, 0x35, 0x37, 0x39, 0x3d]
        );
        assert_eq!(
            reserved((0..32).map(|rt| 0x0400_0000 | rt << 16)),
            [4, 5, 6, 7, 13, 15, 20, 21, 22, 23, 24, 25, 26, 27, 28, 29, 30, 31]
        );
    }

    #[test]
    fn coprocessors() {
        for (opcode, unit) in [
            (0x11, 1),
            (0x12, 2),
            (0x31, 1),
            (0x32, 2),
            (0x35, 1),
            (0x36, 2),
            (0x39, 1),
            (0x3a, 2),
            (0x3d, 1),
            (0x3e, 2),
        ] {
            assert_eq!(decode(Code(opcode << 26)), I::Unusable(unit));
        }
        assert_eq!(decode(Code(0x4200_0018)), I::ErrorReturn);
        assert_eq!(decode(Code(0x43ff_ffd8)), I::ErrorReturn);
        assert_eq!(decode(Code(0x4200_0010)), I::ReservedCp0);
        assert_eq!(decode(Code(0x4100_0000)), I::ReservedCp0);
        assert_eq!(decode(Code(0x40a0_6fff)), I::MoveToCp0 { double: true });
    }
}
