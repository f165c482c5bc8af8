//! A run of steps up to a budget.

use crate::machine::Machine;
use crate::memory::Memory;
use crate::step::step;

/// The highest value of the five interrupt lines.
const LINES_MOST: u32 = 31;

/// How a run ended.
#[derive(Clone, Copy, Debug, PartialEq, Eq)]
pub struct Ending {
    /// Zero, a refusal (1 to 4) or a stop (16 to 18).
    pub number: u32,
    /// The steps counted.
    pub steps: u32,
}

/// Gives the number of the refusal of a run, if it is refused.
pub fn refusal(machine: &Machine, memory: &Memory, lines: u32) -> Option<u32> {
    if !memory.ram_is_allowed() {
        Some(1)
    } else if !memory.rom_is_allowed() {
        Some(2)
    } else if lines > LINES_MOST {
        Some(3)
    } else if !machine.in_range() {
        Some(4)
    } else {
        None
    }
}

/// Runs the machine for a budget of steps.
pub fn run(machine: &mut Machine, memory: &mut Memory, lines: u32, budget: u32) -> Ending {
    if let Some(number) = refusal(machine, memory, lines) {
        return Ending { number, steps: 0 };
    }
    for steps in 0..budget {
        if let Err(stop) = step(machine, memory, lines) {
            return Ending { number: stop.number(), steps };
        }
    }
    Ending { number: 0, steps: budget }
}

#[cfg(test)]
mod tests {
    use super::*;

    #[test]
    fn refusals_come_in_order_and_change_nothing() {
        let mut machine = Machine::fresh();
        machine.gpr[0] = 1;
        machine.pc = 0xffff_ffff_8000_0000;
        let before = machine.clone();
        // sb r1, 0(r0), which would change RAM
        let store = [0xa0, 1, 0, 0];
        let cases: [(usize, usize, u32, u32); 4] =
            [(4, 4, 32, 1), (8, 4, 32, 2), (8, 0, 32, 3), (8, 0, 31, 4)];
        for (ram_length, rom_length, lines, number) in cases {
            let mut ram = store.repeat(ram_length / 4);
            let rom = vec![0; rom_length];
            let mut memory = Memory { ram: &mut ram, rom: &rom };
            assert_eq!(run(&mut machine, &mut memory, lines, 9), Ending { number, steps: 0 });
            assert_eq!((&machine, ram), (&before, store.repeat(ram_length / 4)));
        }
    }

    #[test]
    fn a_budget_is_used_up() {
        let mut machine = Machine::fresh();
        let mut ram = vec![0; 8];
        let mut memory = Memory { ram: &mut ram, rom: &[0; 16] };
        assert_eq!(run(&mut machine, &mut memory, 0, 0), Ending { number: 0, steps: 0 });
        assert_eq!(machine, Machine::fresh());
        assert_eq!(run(&mut machine, &mut memory, 0, 3), Ending { number: 0, steps: 3 });
        assert_eq!(machine.pc, 0xffff_ffff_bfc0_000c);
    }

    #[test]
    fn a_stop_reports_the_steps_before_it() {
        let mut machine = Machine::fresh();
        let mut ram = vec![0; 8];
        // nop; mtc0 r1, Status
        let rom = [0, 0, 0, 0, 0x40, 0x81, 0x60, 0];
        machine.gpr[1] = 8;
        let mut memory = Memory { ram: &mut ram, rom: &rom };
        assert_eq!(run(&mut machine, &mut memory, 0, 9), Ending { number: 18, steps: 1 });
        assert_eq!((machine.pc, machine.cp0.count), (0xffff_ffff_bfc0_0004, 1));
    }
}
