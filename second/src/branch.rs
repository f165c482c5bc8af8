//! Conditions, branches and jumps.

use crate::execute::Flow;
use crate::instruction::{Code, Test};
use crate::machine::Machine;

/// The register that AND-LINK instructions write.
const LINK_REGISTER: usize = 31;

/// Tells whether a condition holds for two operands.
pub fn holds(test: Test, a: u64, b: u64) -> bool {
    let (signed_a, signed_b) = (a as i64, b as i64);
    match test {
        Test::Equal => a == b,
        Test::NotEqual => a != b,
        Test::LessEqualZero => signed_a <= 0,
        Test::GreaterZero => signed_a > 0,
        Test::LessZero => signed_a < 0,
        Test::GreaterEqualZero => signed_a >= 0,
        Test::GreaterEqual => signed_a >= signed_b,
        Test::GreaterEqualUnsigned => a >= b,
        Test::Less => signed_a < signed_b,
        Test::LessUnsigned => a < b,
    }
}

/// Does a conditional branch.
pub fn branch(machine: &mut Machine, code: Code, test: Test, likely: bool, link: bool) -> Flow {
    let taken = holds(test, machine.gpr[code.rs()], machine.gpr[code.rt()]);
    let after_slot = machine.pc.wrapping_add(8);
    if link {
        machine.set_gpr(LINK_REGISTER, after_slot);
    }
    if taken {
        let slot = machine.pc.wrapping_add(4);
        Flow::Slot(slot.wrapping_add(code.signed() << 2))
    } else if likely {
        Flow::SkipSlot
    } else {
        Flow::Slot(after_slot)
    }
}

/// Does J or JAL.
pub fn jump(machine: &mut Machine, code: Code, link: bool) -> Flow {
    if link {
        machine.set_gpr(LINK_REGISTER, machine.pc.wrapping_add(8));
    }
    let slot = machine.pc.wrapping_add(4);
    Flow::Slot(slot & !0x0fff_ffff | code.jump_index() << 2)
}

/// Does JR or JALR.
pub fn jump_register(machine: &mut Machine, code: Code, link: bool) -> Flow {
    let target = machine.gpr[code.rs()];
    if link {
        machine.set_gpr(code.rd(), machine.pc.wrapping_add(8));
    }
    Flow::Slot(target)
}

#[cfg(test)]
mod tests {
    use super::*;

    const MINUS: u64 = u64::MAX;

    #[test]
    fn conditions_use_all_64_bits() {
        for (test, a, b, expected) in [
            (Test::Equal, 1 << 32, 0, false),
            (Test::NotEqual, 1 << 32, 0, true),
            (Test::LessEqualZero, 0, 9, true),
            (Test::LessEqualZero, 0x8000_0000, 0, false),
            (Test::GreaterZero, 0, 0, false),
            (Test::GreaterZero, 0x8000_0000, 0, true),
            (Test::LessZero, 1 << 63, 0, true),
            (Test::GreaterEqualZero, 0, 0, true),
            (Test::GreaterEqual, MINUS, 0, false),
            (Test::GreaterEqualUnsigned, MINUS, 0, true),
            (Test::Less, MINUS, 0, true),
            (Test::LessUnsigned, MINUS, 0, false),
        ] {
            assert_eq!(holds(test, a, b), expected, "{test:?}");
        }
    }

    #[test]
    fn branches_count_from_their_slot() {
        let mut machine = Machine::fresh();
        machine.pc = 0x1000;
        let back = Code(0x1000_ffff);
        assert_eq!(branch(&mut machine, back, Test::Equal, false, false), Flow::Slot(0x1000));
        let never = Test::NotEqual;
        assert_eq!(branch(&mut machine, back, never, false, false), Flow::Slot(0x1008));
        assert_eq!(branch(&mut machine, back, never, true, false), Flow::SkipSlot);
        machine.pc = u64::MAX - 3;
        assert_eq!(branch(&mut machine, Code(1), Test::Equal, false, false), Flow::Slot(4));
    }

    #[test]
    fn links_are_written_after_the_source_is_read() {
        let mut machine = Machine::fresh();
        machine.pc = 0xffff_ffff_8000_0000;
        machine.gpr[31] = 1;
        let code = Code(31 << 21 | 3);
        assert_eq!(branch(&mut machine, code, Test::LessZero, true, true), Flow::SkipSlot);
        assert_eq!(machine.gpr[31], 0xffff_ffff_8000_0008);
        machine.gpr[31] = 0x40;
        let code = Code(31 << 21 | 31 << 11);
        assert_eq!(jump_register(&mut machine, code, true), Flow::Slot(0x40));
        assert_eq!(machine.gpr[31], 0xffff_ffff_8000_0008);
    }

    #[test]
    fn jumps_stay_in_the_region_of_their_slot() {
        let mut machine = Machine::fresh();
        machine.pc = 0xffff_ffff_8fff_fffc;
        assert_eq!(jump(&mut machine, Code(0x0800_0001), false), Flow::Slot(0xffff_ffff_9000_0004));
        machine.pc = 0xffff_ffff_8fff_fff8;
        assert_eq!(jump(&mut machine, Code(0x0fff_ffff), true), Flow::Slot(0xffff_ffff_8fff_fffc));
        assert_eq!(machine.gpr[31], 0xffff_ffff_9000_0000);
    }
}
