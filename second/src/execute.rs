//! The usability checks of an instruction and its execution.

use crate::access;
use crate::branch::{self, holds};
use crate::cp0::move_is_not_built;
use crate::exception::{Exception, Stop, Trouble};
use crate::instruction::{Alu, Code, Instruction, MulDiv, Shift};
use crate::machine::Machine;
use crate::memory::Memory;
use crate::system;
use crate::word::{self, HiLo};

/// Where the machine goes after an instruction.
#[derive(Clone, Copy, Debug, PartialEq, Eq)]
pub enum Flow {
    /// On to the next instruction, or out of the slot.
    On,
    /// Likewise, and Wired was written.
    OnWithWired,
    /// Into the slot, then to an address.
    Slot(u64),
    /// Past the slot.
    SkipSlot,
    /// To an address at once.
    Go(u64),
}

use Instruction as I;

/// Checks in order that an instruction is usable, not reserved, and built where it stands.
pub fn check(machine: &Machine, code: Code, instruction: Instruction) -> Result<(), Trouble> {
    if let I::Unusable(unit) = instruction {
        return Err(Trouble::Exception(Exception::Unusable(unit)));
    }
    if instruction.needs_cp0() && !machine.cp0.is_usable() {
        return Err(Trouble::Exception(Exception::Unusable(0)));
    }
    let reserved = matches!(instruction, I::Reserved | I::ReservedCp0);
    if reserved || instruction.is_kernel_width() && !machine.cp0.is_kernel() {
        return Err(Trouble::Exception(Exception::Reserved));
    }
    if machine.slot && instruction.leaves_the_line() {
        return Err(Trouble::Stop(Stop::BranchInSlot));
    }
    if let I::MoveToCp0 { double } = instruction {
        let value = system::moved_value(machine, code, double);
        if move_is_not_built(code.rd() as u32, value) {
            return Err(Trouble::Stop(Stop::NotBuilt));
        }
    }
    Ok(())
}

/// Computes an operation on two operands, or nothing on overflow.
fn compute(alu: Alu, a: u64, b: u64) -> Option<u64> {
    match alu {
        Alu::Add => word::add_word_exact(a, b),
        Alu::Addu => Some(word::add_word(a, b)),
        Alu::Sub => word::sub_word_exact(a, b),
        Alu::Subu => Some(word::sub_word(a, b)),
        Alu::And => Some(a & b),
        Alu::Or => Some(a | b),
        Alu::Xor => Some(a ^ b),
        Alu::Nor => Some(!(a | b)),
        Alu::Slt => Some(((a as i64) < (b as i64)) as u64),
        Alu::Sltu => Some((a < b) as u64),
        Alu::Dadd => word::add_double_exact(a, b),
        Alu::Daddu => Some(a.wrapping_add(b)),
        Alu::Dsub => word::sub_double_exact(a, b),
        Alu::Dsubu => Some(a.wrapping_sub(b)),
    }
}

/// Shifts a value by a count.
fn shift(kind: Shift, value: u64, count: u32) -> u64 {
    match kind {
        Shift::LeftWord => word::shift_left_word(value, count),
        Shift::RightWord => word::shift_right_word(value, count),
        Shift::SignedWord => word::shift_right_signed_word(value, count),
        Shift::LeftDouble => word::shift_left_double(value, count),
        Shift::RightDouble => word::shift_right_double(value, count),
        Shift::SignedDouble => word::shift_right_signed_double(value, count),
    }
}

/// Multiplies or divides two operands.
fn multiply_or_divide(operation: MulDiv, a: u64, b: u64) -> HiLo {
    match operation {
        MulDiv::Mult => word::multiply_word(a, b),
        MulDiv::Multu => word::multiply_unsigned_word(a, b),
        MulDiv::Div => word::divide_word(a, b),
        MulDiv::Divu => word::divide_unsigned_word(a, b),
        MulDiv::Dmult => word::multiply_double(a, b),
        MulDiv::Dmultu => word::multiply_unsigned_double(a, b),
        MulDiv::Ddiv => word::divide_double(a, b),
        MulDiv::Ddivu => word::divide_unsigned_double(a, b),
    }
}

/// Executes an instruction that has passed its checks.
pub fn execute(
    machine: &mut Machine,
    memory: &mut Memory,
    lines: u32,
    code: Code,
    instruction: Instruction,
) -> Result<Flow, Trouble> {
    let rs = machine.gpr[code.rs()];
    let rt = machine.gpr[code.rt()];
    let overflow = Trouble::Exception(Exception::Overflow);
    match instruction {
        I::Register(alu) => machine.set_gpr(code.rd(), compute(alu, rs, rt).ok_or(overflow)?),
        I::Immediate(alu) => {
            machine.set_gpr(code.rt(), compute(alu, rs, code.signed()).ok_or(overflow)?)
        }
        I::ImmediateUnsigned(alu) => {
            machine.set_gpr(code.rt(), compute(alu, rs, code.unsigned()).ok_or(overflow)?)
        }
        I::LoadUpper => machine.set_gpr(code.rt(), code.signed() << 16),
        I::Shift(kind, more) => machine.set_gpr(code.rd(), shift(kind, rt, code.amount() + more)),
        I::ShiftVariable(kind) => machine.set_gpr(code.rd(), shift(kind, rt, rs as u32)),
        I::MulDiv(operation) => {
            let result = multiply_or_divide(operation, rs, rt);
            machine.hi = result.hi;
            machine.lo = result.lo;
        }
        I::MoveFromHi => machine.set_gpr(code.rd(), machine.hi),
        I::MoveToHi => machine.hi = rs,
        I::MoveFromLo => machine.set_gpr(code.rd(), machine.lo),
        I::MoveToLo => machine.lo = rs,
        I::Trap(test) => trap_if(holds(test, rs, rt))?,
        I::TrapImmediate(test) => trap_if(holds(test, rs, code.signed()))?,
        I::Branch { test, likely, link } => {
            return Ok(branch::branch(machine, code, test, likely, link))
        }
        I::Jump { link } => return Ok(branch::jump(machine, code, link)),
        I::JumpRegister { link } => return Ok(branch::jump_register(machine, code, link)),
        I::Load(load) => access::load(machine, memory, code, load)?,
        I::Store(store) => access::store(machine, memory, code, store)?,
        I::SystemCall => return Err(Trouble::Exception(Exception::SystemCall)),
        I::Breakpoint => return Err(Trouble::Exception(Exception::Breakpoint)),
        I::Sync | I::Cache => {}
        I::MoveFromCp0 { double } => system::move_from(machine, code, double, lines),
        I::MoveToCp0 { double } => return Ok(system::move_to(machine, code, double)),
        I::TlbRead => system::tlb_read(machine),
        I::TlbWriteIndex => system::tlb_write_index(machine),
        I::TlbWriteRandom => system::tlb_write_random(machine),
        I::TlbProbe => system::tlb_probe(machine)?,
        I::ErrorReturn => return Ok(system::error_return(machine)),
        I::Unusable(unit) => return Err(Trouble::Exception(Exception::Unusable(unit))),
        I::Reserved | I::ReservedCp0 => return Err(Trouble::Exception(Exception::Reserved)),
    }
    Ok(Flow::On)
}

/// Raises a trap when its condition holds.
fn trap_if(condition: bool) -> Result<(), Trouble> {
    if condition {
        Err(Trouble::Exception(Exception::Trap))
    } else {
        Ok(())
    }
}

#[cfg(test)]
mod tests {
    use super::*;
    use crate::decode::decode;

    /// Checks an instruction word on a machine.
    fn checked(machine: &Machine, word: u32) -> Result<(), Trouble> {
        check(machine, Code(word), decode(Code(word)))
    }

    /// Executes an instruction word on a machine without memory.
    fn executed(machine: &mut Machine, word: u32) -> Result<Flow, Trouble> {
        let mut memory = Memory { ram: &mut [0; 8], rom: &[] };
        execute(machine, &mut memory, 0, Code(word), decode(Code(word)))
    }

    #[test]
    fn checks_come_in_order() {
        let mut machine = Machine::fresh();
        let eret = 0x4200_0018;
        let dmtc0_status = 0x40a1_6000;
        machine.cp0.status = 0x10;
        machine.slot = true;
        machine.gpr[1] = 8;
        let unusable = Err(Trouble::Exception(Exception::Unusable(0)));
        let reserved = Err(Trouble::Exception(Exception::Reserved));
        assert_eq!(checked(&machine, eret), unusable);
        assert_eq!(checked(&machine, dmtc0_status), unusable);
        assert_eq!(checked(&machine, 0x4200_003f), unusable);
        machine.cp0.status = 0x1000_0010;
        assert_eq!(checked(&machine, 0x4200_003f), reserved);
        assert_eq!(checked(&machine, dmtc0_status), reserved);
        assert_eq!(checked(&machine, eret), Err(Trouble::Stop(Stop::BranchInSlot)));
        let mtc0_status = 0x4081_6000;
        assert_eq!(checked(&machine, mtc0_status), Err(Trouble::Stop(Stop::NotBuilt)));
        machine.gpr[1] = 1 << 40;
        assert_eq!(checked(&machine, mtc0_status), Ok(()));
    }

    #[test]
    fn user_mode_lacks_doublewords() {
        let mut machine = Machine::fresh();
        machine.cp0.status = 0x10;
        let reserved = Err(Trouble::Exception(Exception::Reserved));
        for word in [0x9c00_0000, 0xdc00_0000, 0x0000_002d, 0x6400_0000, 0x0000_0038] {
            assert_eq!(checked(&machine, word), reserved);
        }
        assert_eq!(checked(&machine, 0x8c00_0000), Ok(()));
        machine.cp0.status = 0x12;
        assert_eq!(checked(&machine, 0xdc00_0000), Ok(()));
    }

    #[test]
    fn immediates_extend_by_kind() {
        let mut machine = Machine::fresh();
        machine.gpr[1] = 0xf0f0_f0f0_f0f0_f0f0;
        executed(&mut machine, 0x3022_8001).unwrap();
        assert_eq!(machine.gpr[2], 0x8000);
        executed(&mut machine, 0x2422_ffff).unwrap();
        assert_eq!(machine.gpr[2], 0xffff_ffff_f0f0_f0ef);
        executed(&mut machine, 0x2c22_ffff).unwrap();
        assert_eq!(machine.gpr[2], 1);
        executed(&mut machine, 0x3c02_8000).unwrap();
        assert_eq!(machine.gpr[2], 0xffff_ffff_8000_0000);
    }

    #[test]
    fn overflow_writes_nothing() {
        let mut machine = Machine::fresh();
        machine.gpr[1] = 0x7fff_ffff;
        machine.gpr[2] = 1;
        machine.gpr[3] = 77;
        let overflow = Err(Trouble::Exception(Exception::Overflow));
        assert_eq!(executed(&mut machine, 0x0022_1820), overflow);
        assert_eq!(executed(&mut machine, 0x0022_0020), overflow);
        assert_eq!(machine.gpr[3], 77);
        assert_eq!(executed(&mut machine, 0x0022_182c), Ok(Flow::On));
        assert_eq!(machine.gpr[3], 0x8000_0000);
    }

    #[test]
    fn traps_compare_signed_and_unsigned() {
        let mut machine = Machine::fresh();
        machine.gpr[1] = u64::MAX;
        let trap = Err(Trouble::Exception(Exception::Trap));
        assert_eq!(executed(&mut machine, 0x0020_0030), Ok(Flow::On));
        assert_eq!(executed(&mut machine, 0x0020_0031), trap);
        assert_eq!(executed(&mut machine, 0x042c_ffff), trap);
        assert_eq!(executed(&mut machine, 0x042e_ffff), Ok(Flow::On));
    }
}
