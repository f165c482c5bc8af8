//! The machine: its registers, its fresh state and the range of its fields.

use crate::cp0::Cp0;
use crate::tlb::{fresh_slot, Slot, SLOTS};

/// Everything a step reads and writes, memory apart.
#[derive(Clone, Debug, PartialEq, Eq)]
pub struct Machine {
    pub gpr: [u64; 32],
    pub hi: u64,
    pub lo: u64,
    pub pc: u64,
    /// Whether the instruction at PC stands in the slot of a branch.
    pub slot: bool,
    /// Where the branch goes after its slot; zero without a slot.
    pub target: u64,
    /// The link bit of LL and SC.
    pub link: bool,
    pub cp0: Cp0,
    pub tlb: [Slot; SLOTS],
}

impl Machine {
    /// Gives the machine as it is after reset.
    pub fn fresh() -> Machine {
        Machine {
            gpr: [0; 32],
            hi: 0,
            lo: 0,
            pc: 0xffff_ffff_bfc0_0000,
            slot: false,
            target: 0,
            link: false,
            cp0: Cp0::fresh(),
            tlb: std::array::from_fn(fresh_slot),
        }
    }

    /// Writes a general register, r0 excepted.
    #[inline]
    pub fn set_gpr(&mut self, number: usize, value: u64) {
        if number != 0 {
            self.gpr[number] = value;
        }
    }

    /// Tells whether every field of the machine is inside its range.
    pub fn in_range(&self) -> bool {
        self.gpr[0] == 0
            && (self.slot || self.target == 0)
            && self.cp0.in_range()
            && self.tlb.iter().all(Slot::in_range)
    }
}

#[cfg(test)]
mod tests {
    use super::*;

    #[test]
    fn the_fresh_machine_is_in_range() {
        let machine = Machine::fresh();
        assert!(machine.in_range());
        assert_eq!(machine.pc, 0xffff_ffff_bfc0_0000);
        assert_eq!(machine.tlb[47].page, 0x8005_e000);
    }

    #[test]
    fn register_zero_is_never_written() {
        let mut machine = Machine::fresh();
        machine.set_gpr(0, 5);
        machine.set_gpr(31, 6);
        assert_eq!((machine.gpr[0], machine.gpr[31]), (0, 6));
    }

    #[test]
    fn fields_out_of_range_are_found() {
        let fresh = Machine::fresh();
        let mut machine = fresh.clone();
        machine.gpr[0] = 1;
        assert!(!machine.in_range());
        machine = fresh.clone();
        machine.target = 4;
        assert!(!machine.in_range());
        machine.slot = true;
        assert!(machine.in_range());
        machine.tlb[3].mask = 1;
        assert!(!machine.in_range());
        machine = fresh.clone();
        machine.cp0.random = 48;
        assert!(!machine.in_range());
    }
}
