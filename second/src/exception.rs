//! Exceptions and stops, and the way an exception is taken.

use crate::address::VAddr;
use crate::cp0::{CAUSE_BD, STATUS_BEV, STATUS_EXL};
use crate::machine::Machine;

/// The exceptions a step can take.
#[derive(Clone, Copy, Debug, PartialEq, Eq)]
pub enum Exception {
    Interrupt,
    Modified(VAddr),
    TlbLoad { address: VAddr, refill: bool },
    TlbStore { address: VAddr, refill: bool },
    AddressLoad(VAddr),
    AddressStore(VAddr),
    FetchBus,
    DataBus,
    SystemCall,
    Breakpoint,
    Reserved,
    Unusable(u32),
    Overflow,
    Trap,
}

/// The stops that end a run before its budget.
#[derive(Clone, Copy, Debug, PartialEq, Eq)]
pub enum Stop {
    DoubleMatch,
    BranchInSlot,
    NotBuilt,
}

/// What keeps an instruction from being done.
#[derive(Clone, Copy, Debug, PartialEq, Eq)]
pub enum Trouble {
    Exception(Exception),
    Stop(Stop),
}

impl Stop {
    /// Gives the number of the stop.
    pub fn number(self) -> u32 {
        match self {
            Stop::DoubleMatch => 16,
            Stop::BranchInSlot => 17,
            Stop::NotBuilt => 18,
        }
    }
}

impl Exception {
    /// Gives the code of the exception.
    pub fn code(self) -> u32 {
        match self {
            Exception::Interrupt => 0,
            Exception::Modified(_) => 1,
            Exception::TlbLoad { .. } => 2,
            Exception::TlbStore { .. } => 3,
            Exception::AddressLoad(_) => 4,
            Exception::AddressStore(_) => 5,
            Exception::FetchBus => 6,
            Exception::DataBus => 7,
            Exception::SystemCall => 8,
            Exception::Breakpoint => 9,
            Exception::Reserved => 10,
            Exception::Unusable(_) => 11,
            Exception::Overflow => 12,
            Exception::Trap => 13,
        }
    }

    /// Tells whether the exception is a refill.
    fn is_refill(self) -> bool {
        matches!(
            self,
            Exception::TlbLoad { refill: true, .. } | Exception::TlbStore { refill: true, .. }
        )
    }

    /// Gives the coprocessor unit that Cause names.
    fn unit(self) -> u32 {
        match self {
            Exception::Unusable(unit) => unit,
            _ => 0,
        }
    }
}

/// Takes an exception: records it and sends the machine to its vector.
pub fn take(machine: &mut Machine, exception: Exception) {
    let cp0 = &mut machine.cp0;
    let nested = cp0.status & STATUS_EXL != 0;
    if !nested {
        if machine.slot {
            cp0.epc = machine.pc.wrapping_sub(4);
            cp0.cause |= CAUSE_BD;
        } else {
            cp0.epc = machine.pc;
            cp0.cause &= !CAUSE_BD;
        }
    }
    cp0.note_cause(exception.code(), exception.unit());
    match exception {
        Exception::AddressLoad(address) | Exception::AddressStore(address) => {
            cp0.bad_vaddr = address.0;
        }
        Exception::Modified(address)
        | Exception::TlbLoad { address, .. }
        | Exception::TlbStore { address, .. } => {
            cp0.bad_vaddr = address.0;
            cp0.note_bad_page(address.0);
        }
        _ => {}
    }
    let base: u64 =
        if cp0.status & STATUS_BEV != 0 { 0xffff_ffff_bfc0_0200 } else { 0xffff_ffff_8000_0000 };
    let offset = if exception.is_refill() && !nested { 0 } else { 0x180 };
    cp0.status |= STATUS_EXL;
    machine.pc = base + offset;
    machine.slot = false;
    machine.target = 0;
}

#[cfg(test)]
mod tests {
    use super::*;

    /// Gives a machine at a mapped address with the given Status.
    fn machine(status: u32) -> Machine {
        let mut machine = Machine::fresh();
        machine.cp0.status = status;
        machine.pc = 0x0040_0104;
        machine
    }

    #[test]
    fn a_refill_uses_its_own_vector_once() {
        let refill = Exception::TlbLoad { address: VAddr(0x0040_0123), refill: true };
        let mut first = machine(0);
        take(&mut first, refill);
        assert_eq!(first.pc, 0xffff_ffff_8000_0000);
        assert_eq!(first.cp0.context, 0x2000);
        assert_eq!(first.cp0.bad_vaddr, 0x0040_0123);
        assert_eq!((first.cp0.epc, first.cp0.status, first.cp0.cause), (0x0040_0104, 2, 8));
        first.pc = 0xffff_ffff_8000_0040;
        first.slot = true;
        take(&mut first, refill);
        assert_eq!(first.pc, 0xffff_ffff_8000_0180);
        assert_eq!((first.cp0.epc, first.cp0.cause), (0x0040_0104, 8));
        assert!(!first.slot);
    }

    #[test]
    fn a_slot_names_its_branch() {
        let mut machine = machine(STATUS_BEV);
        machine.slot = true;
        machine.target = 0x0040_0800;
        machine.link = true;
        take(&mut machine, Exception::Unusable(2));
        assert_eq!(machine.pc, 0xffff_ffff_bfc0_0380);
        assert_eq!(machine.cp0.epc, 0x0040_0100);
        assert_eq!(machine.cp0.cause, 0xa000_002c);
        assert!(!machine.slot && machine.target == 0 && machine.link);
        take(&mut machine, Exception::SystemCall);
        assert_eq!(machine.cp0.cause, 0x8000_0020);
    }

    #[test]
    fn address_errors_set_only_the_bad_address() {
        let mut machine = machine(0);
        take(&mut machine, Exception::AddressStore(VAddr(0x1234_5678_9abc_def1)));
        assert_eq!(machine.cp0.bad_vaddr, 0x1234_5678_9abc_def1);
        assert_eq!((machine.cp0.context, machine.cp0.entry_hi), (0, 0));
        take(&mut machine, Exception::DataBus);
        assert_eq!(machine.cp0.bad_vaddr, 0x1234_5678_9abc_def1);
    }

    #[test]
    fn codes_and_stop_numbers() {
        assert_eq!(Exception::Interrupt.code(), 0);
        assert_eq!(Exception::Trap.code(), 13);
        let numbers = [Stop::DoubleMatch, Stop::BranchInSlot, Stop::NotBuilt];
        assert_eq!(numbers.map(Stop::number), [16, 17, 18]);
    }
}
