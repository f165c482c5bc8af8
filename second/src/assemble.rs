//! Small encoders of instruction words.

/// Encodes a SPECIAL instruction.
pub fn special(function: u32, rs: u32, rt: u32, rd: u32, amount: u32) -> u32 {
    rs << 21 | rt << 16 | rd << 11 | amount << 6 | function
}

/// Encodes an instruction with a 16-bit immediate.
pub fn immediate(opcode: u32, rs: u32, rt: u32, value: u32) -> u32 {
    opcode << 26 | rs << 21 | rt << 16 | value & 0xffff
}

/// Encodes a REGIMM instruction.
pub fn regimm(sub: u32, rs: u32, value: u32) -> u32 {
    immediate(1, rs, sub, value)
}

/// Encodes J (2) or JAL (3) to a word address.
pub fn jump(opcode: u32, index: u32) -> u32 {
    opcode << 26 | index & 0x03ff_ffff
}

/// Encodes a COP0 move: 0 MFC0, 1 DMFC0, 4 MTC0, 5 DMTC0.
pub fn cp0_move(kind: u32, rt: u32, register: u32) -> u32 {
    0x10 << 26 | kind << 21 | rt << 16 | register << 11
}

/// Encodes MFC0.
pub fn mfc0(rt: u32, register: u32) -> u32 {
    cp0_move(0, rt, register)
}

/// Encodes DMFC0.
pub fn dmfc0(rt: u32, register: u32) -> u32 {
    cp0_move(1, rt, register)
}

/// Encodes MTC0.
pub fn mtc0(rt: u32, register: u32) -> u32 {
    cp0_move(4, rt, register)
}

/// Encodes DMTC0.
pub fn dmtc0(rt: u32, register: u32) -> u32 {
    cp0_move(5, rt, register)
}

/// Encodes a COP0 function.
pub fn cp0_function(function: u32) -> u32 {
    0x4200_0000 | function
}

/// Encodes OR with r0, a plain move.
pub fn copy(rd: u32, rs: u32) -> u32 {
    special(0x25, rs, 0, rd, 0)
}

/// Encodes ADDIU.
pub fn addiu(rt: u32, rs: u32, value: u32) -> u32 {
    immediate(0x09, rs, rt, value)
}

/// Encodes ORI.
pub fn ori(rt: u32, rs: u32, value: u32) -> u32 {
    immediate(0x0d, rs, rt, value)
}

/// Encodes LUI.
pub fn lui(rt: u32, value: u32) -> u32 {
    immediate(0x0f, 0, rt, value)
}

/// Encodes BEQ with a distance in words from the slot.
pub fn beq(rs: u32, rt: u32, distance: i32) -> u32 {
    immediate(0x04, rs, rt, distance as u32)
}

/// Encodes BNE with a distance in words from the slot.
pub fn bne(rs: u32, rt: u32, distance: i32) -> u32 {
    immediate(0x05, rs, rt, distance as u32)
}

/// Encodes JR.
pub fn jr(rs: u32) -> u32 {
    special(0x08, rs, 0, 0, 0)
}

/// Encodes a load or store.
pub fn access(opcode: u32, rt: u32, offset: u32, base: u32) -> u32 {
    immediate(opcode, base, rt, offset)
}

/// Encodes LD.
pub fn ld(rt: u32, offset: u32, base: u32) -> u32 {
    access(0x37, rt, offset, base)
}

/// Encodes SD.
pub fn sd(rt: u32, offset: u32, base: u32) -> u32 {
    access(0x3f, rt, offset, base)
}

/// Encodes LW.
pub fn lw(rt: u32, offset: u32, base: u32) -> u32 {
    access(0x23, rt, offset, base)
}

/// Encodes SW.
pub fn sw(rt: u32, offset: u32, base: u32) -> u32 {
    access(0x2b, rt, offset, base)
}

pub const NOP: u32 = 0;
pub const SYSCALL: u32 = 0x0c;
pub const BREAK: u32 = 0x0d;
pub const SYNC: u32 = 0x0f;
pub const TLBR: u32 = 0x4200_0001;
pub const TLBWI: u32 = 0x4200_0002;
pub const TLBWR: u32 = 0x4200_0006;
pub const TLBP: u32 = 0x4200_0008;
pub const ERET: u32 = 0x4200_0018;

#[cfg(test)]
mod tests {
    use super::*;
    use crate::decode::decode;
    use crate::instruction::{Alu, Code, Instruction, Load};

    #[test]
    fn words_known_by_heart() {
        assert_eq!(addiu(8, 0, 5), 0x2408_0005);
        assert_eq!(special(0x21, 8, 8, 9, 0), 0x0108_4821);
        assert_eq!(mtc0(1, 12), 0x4081_6000);
        assert_eq!(dmtc0(1, 12), 0x40a1_6000);
        assert_eq!(jr(31), 0x03e0_0008);
        assert_eq!(beq(0, 0, -1), 0x1000_ffff);
        assert_eq!(cp0_function(0x18), ERET);
    }

    #[test]
    fn encoded_words_decode() {
        assert_eq!(decode(Code(lw(2, 4, 3))), Instruction::Load(Load::Word));
        assert_eq!(decode(Code(copy(2, 3))), Instruction::Register(Alu::Or));
        assert_eq!(decode(Code(regimm(0x0c, 1, 7))), decode(Code(0x042c_0007)));
        assert_eq!(decode(Code(jump(3, 1))), Instruction::Jump { link: true });
    }
}
