//! Instruction words, their fields, and what they can be decoded to.

use crate::word::extend_half;

/// An instruction word with its fields.
#[derive(Clone, Copy, Debug, PartialEq, Eq)]
pub struct Code(pub u32);

impl Code {
    /// Gives the major opcode.
    pub fn opcode(self) -> u32 {
        self.0 >> 26
    }

    /// Gives the number of register rs, which is also the base.
    pub fn rs(self) -> usize {
        (self.0 >> 21 & 31) as usize
    }

    /// Gives the number of register rt.
    pub fn rt(self) -> usize {
        (self.0 >> 16 & 31) as usize
    }

    /// Gives the number of register rd.
    pub fn rd(self) -> usize {
        (self.0 >> 11 & 31) as usize
    }

    /// Gives the shift amount.
    pub fn amount(self) -> u32 {
        self.0 >> 6 & 31
    }

    /// Gives the function field.
    pub fn function(self) -> u32 {
        self.0 & 63
    }

    /// Gives the sign-extended immediate.
    pub fn signed(self) -> u64 {
        extend_half(self.0 as u16)
    }

    /// Gives the zero-extended immediate.
    pub fn unsigned(self) -> u64 {
        self.0 as u16 as u64
    }

    /// Gives the 26-bit index of a jump.
    pub fn jump_index(self) -> u64 {
        (self.0 & 0x03ff_ffff) as u64
    }
}

/// Operations on two operands with one result.
#[derive(Clone, Copy, Debug, PartialEq, Eq)]
pub enum Alu {
    Add,
    Addu,
    Sub,
    Subu,
    And,
    Or,
    Xor,
    Nor,
    Slt,
    Sltu,
    Dadd,
    Daddu,
    Dsub,
    Dsubu,
}

/// Shifts of a word or a doubleword.
#[derive(Clone, Copy, Debug, PartialEq, Eq)]
pub enum Shift {
    LeftWord,
    RightWord,
    SignedWord,
    LeftDouble,
    RightDouble,
    SignedDouble,
}

/// Products and quotients.
#[derive(Clone, Copy, Debug, PartialEq, Eq)]
pub enum MulDiv {
    Mult,
    Multu,
    Div,
    Divu,
    Dmult,
    Dmultu,
    Ddiv,
    Ddivu,
}

/// Conditions of branches and traps.
#[derive(Clone, Copy, Debug, PartialEq, Eq)]
pub enum Test {
    Equal,
    NotEqual,
    LessEqualZero,
    GreaterZero,
    LessZero,
    GreaterEqualZero,
    GreaterEqual,
    GreaterEqualUnsigned,
    Less,
    LessUnsigned,
}

/// Loads.
#[derive(Clone, Copy, Debug, PartialEq, Eq)]
pub enum Load {
    Byte,
    ByteUnsigned,
    Half,
    HalfUnsigned,
    Word,
    WordUnsigned,
    Double,
    WordLeft,
    WordRight,
    DoubleLeft,
    DoubleRight,
    Linked,
    LinkedDouble,
}

/// Stores.
#[derive(Clone, Copy, Debug, PartialEq, Eq)]
pub enum Store {
    Byte,
    Half,
    Word,
    Double,
    WordLeft,
    WordRight,
    DoubleLeft,
    DoubleRight,
    Conditional,
    ConditionalDouble,
}

/// A decoded instruction.
#[derive(Clone, Copy, Debug, PartialEq, Eq)]
pub enum Instruction {
    Register(Alu),
    Immediate(Alu),
    ImmediateUnsigned(Alu),
    LoadUpper,
    /// A shift by the amount field plus the given number.
    Shift(Shift, u32),
    ShiftVariable(Shift),
    MulDiv(MulDiv),
    MoveFromHi,
    MoveToHi,
    MoveFromLo,
    MoveToLo,
    Trap(Test),
    TrapImmediate(Test),
    Branch {
        test: Test,
        likely: bool,
        link: bool,
    },
    Jump {
        link: bool,
    },
    JumpRegister {
        link: bool,
    },
    Load(Load),
    Store(Store),
    SystemCall,
    Breakpoint,
    Sync,
    Cache,
    MoveFromCp0 {
        double: bool,
    },
    MoveToCp0 {
        double: bool,
    },
    TlbRead,
    TlbWriteIndex,
    TlbWriteRandom,
    TlbProbe,
    ErrorReturn,
    ReservedCp0,
    Unusable(u32),
    Reserved,
}

use Instruction as I;

impl Instruction {
    /// Tells whether the instruction needs CP0 to be usable.
    pub fn needs_cp0(self) -> bool {
        matches!(
            self,
            I::Cache
                | I::MoveFromCp0 { .. }
                | I::MoveToCp0 { .. }
                | I::TlbRead
                | I::TlbWriteIndex
                | I::TlbWriteRandom
                | I::TlbProbe
                | I::ErrorReturn
                | I::ReservedCp0
        )
    }

    /// Tells whether the instruction is one that User mode does not have.
    pub fn is_kernel_width(self) -> bool {
        match self {
            I::Register(alu) | I::Immediate(alu) => {
                matches!(alu, Alu::Dadd | Alu::Daddu | Alu::Dsub | Alu::Dsubu)
            }
            I::Shift(shift, _) | I::ShiftVariable(shift) => {
                matches!(shift, Shift::LeftDouble | Shift::RightDouble | Shift::SignedDouble)
            }
            I::MulDiv(operation) => {
                matches!(operation, MulDiv::Dmult | MulDiv::Dmultu | MulDiv::Ddiv | MulDiv::Ddivu)
            }
            I::Load(load) => matches!(
                load,
                Load::WordUnsigned
                    | Load::Double
                    | Load::DoubleLeft
                    | Load::DoubleRight
                    | Load::LinkedDouble
            ),
            I::Store(store) => matches!(
                store,
                Store::Double | Store::DoubleLeft | Store::DoubleRight | Store::ConditionalDouble
            ),
            I::MoveFromCp0 { double } | I::MoveToCp0 { double } => double,
            _ => false,
        }
    }

    /// Tells whether the instruction may not stand in a slot.
    pub fn leaves_the_line(self) -> bool {
        matches!(self, I::Branch { .. } | I::Jump { .. } | I::JumpRegister { .. } | I::ErrorReturn)
    }
}

#[cfg(test)]
mod tests {
    use super::*;
    use crate::decode::decode;

    #[test]
    fn fields_are_cut_out() {
        let code = Code(0x2408_8005);
        assert_eq!((code.opcode(), code.rs(), code.rt()), (9, 0, 8));
        assert_eq!((code.signed(), code.unsigned()), (0xffff_ffff_ffff_8005, 0x8005));
        let code = Code(0x0108_4fff);
        assert_eq!((code.rd(), code.amount(), code.function()), (9, 31, 63));
        assert_eq!(Code(0x0fff_ffff).jump_index(), 0x03ff_ffff);
    }

    #[test]
    fn every_cop0_word_needs_cp0() {
        for rs in 0..32 {
            for function in 0..64 {
                assert!(decode(Code(0x4000_0000 | rs << 21 | function)).needs_cp0());
            }
        }
        assert!(decode(Code(0x2f << 26)).needs_cp0() && !decode(Code(15)).needs_cp0());
    }

    #[test]
    fn kernel_width_instructions_are_counted() {
        let count = |codes: Vec<u32>| {
            codes.into_iter().filter(|code| decode(Code(*code)).is_kernel_width()).count()
        };
        // DADDI DADDIU LDL LDR LWU SDL SDR LLD LD SCD SD
        assert_eq!(count((0..64).map(|opcode| opcode << 26).collect()), 11);
        // Three variable shifts, four products and quotients, four sums, six shifts.
        assert_eq!(count((0..64).collect()), 17);
        assert_eq!(count((0..32).map(|rs| 0x4000_0000 | rs << 21).collect()), 2);
    }

    #[test]
    fn branches_and_jumps_leave_the_line() {
        let count = |codes: Vec<u32>| {
            codes.into_iter().filter(|code| decode(Code(*code)).leaves_the_line()).count()
        };
        assert_eq!(count((1..64).map(|opcode| opcode << 26).collect()), 11);
        assert_eq!(count((0..64).collect()), 2);
        assert_eq!(count((0..32).map(|rt| 0x0400_0000 | rt << 16).collect()), 8);
    }
}
