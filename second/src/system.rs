//! CP0 moves, TLB operations and ERET.

use crate::cp0::{number, STATUS_ERL, STATUS_EXL};
use crate::exception::{Stop, Trouble};
use crate::execute::Flow;
use crate::instruction::Code;
use crate::machine::Machine;
use crate::tlb::{search, Found, Slot, SLOTS};
use crate::word::extend;

/// The Index value of a search that found nothing.
const NOT_FOUND: u32 = 0x8000_0000;

/// Does MFC0 or DMFC0.
pub fn move_from(machine: &mut Machine, code: Code, double: bool, lines: u32) {
    let value = machine.cp0.read_with_lines(code.rd() as u32, lines);
    machine.set_gpr(code.rt(), if double { value } else { extend(value as u32) });
}

/// Gives the doubleword that MTC0 or DMTC0 moves.
pub fn moved_value(machine: &Machine, code: Code, double: bool) -> u64 {
    let value = machine.gpr[code.rt()];
    if double {
        value
    } else {
        extend(value as u32)
    }
}

/// Does MTC0 or DMTC0.
pub fn move_to(machine: &mut Machine, code: Code, double: bool) -> Flow {
    let register = code.rd() as u32;
    machine.cp0.write(register, moved_value(machine, code, double));
    if register == number::WIRED {
        Flow::OnWithWired
    } else {
        Flow::On
    }
}

/// Gives the slot that Index names.
fn indexed(machine: &Machine) -> usize {
    (machine.cp0.index & 0x3f) as usize
}

/// Does TLBR.
pub fn tlb_read(machine: &mut Machine) {
    let place = indexed(machine);
    if place < SLOTS {
        machine.cp0.set_slot_values(machine.tlb[place].values());
    }
}

/// Does TLBWI.
pub fn tlb_write_index(machine: &mut Machine) {
    let place = indexed(machine);
    if place < SLOTS {
        machine.tlb[place] = Slot::written(machine.cp0.slot_values());
    }
}

/// Does TLBWR.
pub fn tlb_write_random(machine: &mut Machine) {
    machine.tlb[machine.cp0.random as usize] = Slot::written(machine.cp0.slot_values());
}

/// Does TLBP.
pub fn tlb_probe(machine: &mut Machine) -> Result<(), Trouble> {
    let found = search(&machine.tlb, machine.cp0.entry_hi, machine.cp0.asid());
    machine.cp0.index = match found {
        Found::None => NOT_FOUND,
        Found::One(place) => place as u32,
        Found::Several => return Err(Trouble::Stop(Stop::DoubleMatch)),
    };
    Ok(())
}

/// Does ERET.
pub fn error_return(machine: &mut Machine) -> Flow {
    machine.link = false;
    if machine.cp0.status & STATUS_ERL != 0 {
        machine.cp0.status &= !STATUS_ERL;
        Flow::Go(machine.cp0.error_epc)
    } else {
        machine.cp0.status &= !STATUS_EXL;
        Flow::Go(machine.cp0.epc)
    }
}

#[cfg(test)]
mod tests {
    use super::*;

    /// Gives a move word for registers rt and rd.
    fn code(rt: u32, rd: u32) -> Code {
        Code(rt << 16 | rd << 11)
    }

    #[test]
    fn word_moves_extend_both_ways() {
        let mut machine = Machine::fresh();
        machine.gpr[1] = 0x1234_5678_8765_4321;
        move_to(&mut machine, code(1, number::EPC), false);
        assert_eq!(machine.cp0.epc, 0xffff_ffff_8765_4321);
        move_to(&mut machine, code(1, number::EPC), true);
        assert_eq!(machine.cp0.epc, 0x1234_5678_8765_4321);
        move_from(&mut machine, code(2, number::EPC), false, 0);
        assert_eq!(machine.gpr[2], 0xffff_ffff_8765_4321);
        move_from(&mut machine, code(2, number::EPC), true, 0);
        assert_eq!(machine.gpr[2], 0x1234_5678_8765_4321);
        move_from(&mut machine, code(2, number::CAUSE), true, 5);
        assert_eq!(machine.gpr[2], 0x1400);
    }

    #[test]
    fn a_wired_write_is_told() {
        let mut machine = Machine::fresh();
        assert_eq!(move_to(&mut machine, code(0, number::WIRED), false), Flow::OnWithWired);
        assert_eq!(move_to(&mut machine, code(0, number::COUNT), false), Flow::On);
    }

    #[test]
    fn slots_are_written_and_read_back() {
        let mut machine = Machine::fresh();
        machine.cp0.index = 0x8000_0005;
        machine.cp0.page_mask = 0x6000;
        machine.cp0.entry_hi = 0xffff_e007;
        machine.cp0.entry_lo0 = 0x47;
        machine.cp0.entry_lo1 = 0x86;
        tlb_write_index(&mut machine);
        machine.cp0.index = 5;
        tlb_read(&mut machine);
        assert_eq!(machine.cp0.entry_hi, 0xffff_8007);
        assert_eq!((machine.cp0.entry_lo0, machine.cp0.entry_lo1), (0x46, 0x86));
        tlb_probe(&mut machine).unwrap();
        assert_eq!(machine.cp0.index, 5);
        machine.cp0.random = 9;
        tlb_write_random(&mut machine);
        assert_eq!(tlb_probe(&mut machine), Err(Trouble::Stop(Stop::DoubleMatch)));
        assert_eq!(machine.cp0.index, 5);
        machine.cp0.entry_hi = 8;
        tlb_probe(&mut machine).unwrap();
        assert_eq!(machine.cp0.index, NOT_FOUND);
    }

    #[test]
    fn slots_past_the_end_do_nothing() {
        let mut machine = Machine::fresh();
        for place in [48, 63] {
            machine.cp0.index = place;
            let before = machine.clone();
            tlb_read(&mut machine);
            tlb_write_index(&mut machine);
            assert_eq!(machine, before);
        }
    }

    #[test]
    fn returns_clear_one_level_and_the_link_bit() {
        let mut machine = Machine::fresh();
        machine.cp0.status = 6;
        machine.cp0.epc = 0x100;
        machine.cp0.error_epc = 0x200;
        machine.link = true;
        assert_eq!(error_return(&mut machine), Flow::Go(0x200));
        assert_eq!((machine.cp0.status, machine.link), (2, false));
        machine.link = true;
        assert_eq!(error_return(&mut machine), Flow::Go(0x100));
        assert_eq!((machine.cp0.status, machine.link), (0, false));
    }
}
