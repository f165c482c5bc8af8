//! One step of the machine.

use crate::address::{translate, Use, VAddr};
use crate::decode::decode;
use crate::exception::{take, Exception, Stop, Trouble};
use crate::execute::{check, execute, Flow};
use crate::instruction::{Code, Instruction};
use crate::machine::Machine;
use crate::memory::Memory;

/// Fetches the instruction word at PC.
fn fetch(machine: &Machine, memory: &Memory) -> Result<Code, Trouble> {
    let physical = translate(machine, VAddr(machine.pc), 4, Use::Fetch)?;
    let eight = memory.read(physical).ok_or(Use::Fetch.bus_error())?;
    let word = if physical.0 & 4 == 0 { eight >> 32 } else { eight };
    Ok(Code(word as u32))
}

/// Gives the instruction that is due and has passed its checks, unless something comes before it.
pub fn due(machine: &Machine, memory: &Memory, lines: u32) -> Result<(Code, Instruction), Trouble> {
    if machine.cp0.interrupt_is_due(lines) {
        return Err(Trouble::Exception(Exception::Interrupt));
    }
    let code = fetch(machine, memory)?;
    let instruction = decode(code);
    check(machine, code, instruction)?;
    Ok((code, instruction))
}

/// Does the interrupt or the instruction that is due, up to where it leads.
fn attempt(machine: &mut Machine, memory: &mut Memory, lines: u32) -> Result<Flow, Trouble> {
    let (code, instruction) = due(machine, memory, lines)?;
    execute(machine, memory, lines, code, instruction)
}

/// Moves PC and the pending slot on after an instruction.
fn follow(machine: &mut Machine, flow: Flow) {
    let (slot, target) = (machine.slot, machine.target);
    machine.slot = false;
    machine.target = 0;
    machine.pc = match flow {
        Flow::On | Flow::OnWithWired => {
            if slot {
                target
            } else {
                machine.pc.wrapping_add(4)
            }
        }
        Flow::Slot(next) => {
            machine.slot = true;
            machine.target = next;
            machine.pc.wrapping_add(4)
        }
        Flow::SkipSlot => machine.pc.wrapping_add(8),
        Flow::Go(next) => next,
    };
}

/// Takes one step of a machine in range, or stops with the machine and memory as they were.
pub fn step(machine: &mut Machine, memory: &mut Memory, lines: u32) -> Result<(), Stop> {
    let mut wired_was_written = false;
    match attempt(machine, memory, lines) {
        Ok(flow) => {
            wired_was_written = flow == Flow::OnWithWired;
            follow(machine, flow);
        }
        Err(Trouble::Exception(exception)) => take(machine, exception),
        Err(Trouble::Stop(stop)) => return Err(stop),
    }
    machine.cp0.tick(wired_was_written);
    Ok(())
}

#[cfg(test)]
mod tests {
    use super::*;

    const START: u64 = 0xffff_ffff_8000_0000;

    /// Gives a Kernel machine at the start of RAM.
    fn machine() -> Machine {
        let mut machine = Machine::fresh();
        machine.cp0.status = 0;
        machine.pc = START;
        machine
    }

    /// Gives RAM that holds the words from its start.
    fn ram(words: &[u32]) -> Vec<u8> {
        let mut ram = vec![0; 1024];
        for (place, word) in words.iter().enumerate() {
            ram[4 * place..4 * place + 4].copy_from_slice(&word.to_be_bytes());
        }
        ram
    }

    #[test]
    fn a_branch_runs_its_slot() {
        // beq r0, r0, +3; addiu r1, r1, 1
        let mut ram = ram(&[0x1000_0003, 0x2421_0001]);
        let mut memory = Memory { ram: &mut ram, rom: &[] };
        let mut machine = machine();
        step(&mut machine, &mut memory, 0).unwrap();
        assert_eq!((machine.pc, machine.slot, machine.target), (START + 4, true, START + 16));
        step(&mut machine, &mut memory, 0).unwrap();
        assert_eq!((machine.pc, machine.slot, machine.target), (START + 16, false, 0));
        assert_eq!((machine.gpr[1], machine.cp0.count, machine.cp0.random), (1, 2, 45));
    }

    #[test]
    fn a_likely_branch_not_taken_skips() {
        // bnel r0, r0, +3
        let mut ram = ram(&[0x5400_0003]);
        let mut memory = Memory { ram: &mut ram, rom: &[] };
        let mut machine = machine();
        step(&mut machine, &mut memory, 0).unwrap();
        assert_eq!((machine.pc, machine.slot), (START + 8, false));
    }

    #[test]
    fn a_branch_in_a_slot_stops_uncounted() {
        // bne r0, r0, +3; j 0
        let mut ram = ram(&[0x1400_0003, 0x0800_0000]);
        let mut memory = Memory { ram: &mut ram, rom: &[] };
        let mut machine = machine();
        step(&mut machine, &mut memory, 0).unwrap();
        assert_eq!(machine.target, START + 8);
        let before = machine.clone();
        assert_eq!(step(&mut machine, &mut memory, 0), Err(Stop::BranchInSlot));
        assert_eq!(machine, before);
    }

    #[test]
    fn an_interrupt_in_a_slot_names_the_branch() {
        let mut ram = ram(&[0x1000_0003, 0x2421_0001]);
        let mut memory = Memory { ram: &mut ram, rom: &[] };
        let mut machine = machine();
        step(&mut machine, &mut memory, 0).unwrap();
        machine.cp0.status = 0x0401;
        step(&mut machine, &mut memory, 1).unwrap();
        assert_eq!((machine.pc, machine.cp0.epc), (START + 0x180, START));
        assert_eq!((machine.cp0.cause, machine.gpr[1]), (0x8000_0000, 0));
        assert_eq!(machine.cp0.count, 2);
    }

    #[test]
    fn a_wired_write_leaves_random_at_the_top() {
        // mtc0 r1, Wired; nop
        let mut ram = ram(&[0x4081_3000, 0]);
        let mut memory = Memory { ram: &mut ram, rom: &[] };
        let mut machine = machine();
        machine.gpr[1] = 46;
        machine.cp0.random = 20;
        step(&mut machine, &mut memory, 0).unwrap();
        assert_eq!((machine.cp0.wired, machine.cp0.random), (46, 47));
        step(&mut machine, &mut memory, 0).unwrap();
        assert_eq!(machine.cp0.random, 46);
        step(&mut machine, &mut memory, 0).unwrap();
        assert_eq!(machine.cp0.random, 47);
    }

    #[test]
    fn the_timer_sets_its_bit_at_the_end_of_a_step() {
        // mtc0 r1, Compare
        let mut ram = ram(&[0x4081_5800]);
        let mut memory = Memory { ram: &mut ram, rom: &[] };
        let mut machine = machine();
        machine.gpr[1] = 1;
        machine.cp0.cause = 0x8000;
        step(&mut machine, &mut memory, 0).unwrap();
        assert_eq!((machine.cp0.count, machine.cp0.cause), (1, 0x8000));
        machine.cp0.status = 0x8001;
        step(&mut machine, &mut memory, 0).unwrap();
        assert_eq!((machine.pc, machine.cp0.epc), (START + 0x180, START + 4));
    }

    #[test]
    fn no_step_makes_register_zero_another_number() {
        // addiu r0, r1, 5; lw r0, 0(r1); mfc0 r0, PRId; ll r0, 0(r1); sc r0, 0(r1); jalr r0, r1
        let words = [0x2420_0005, 0x8c20_0000, 0x4000_7800, 0xc020_0000, 0xe020_0000, 0x0020_0009];
        let mut ram = ram(&words);
        let mut memory = Memory { ram: &mut ram, rom: &[] };
        let mut machine = machine();
        machine.gpr[1] = START;
        for _ in words {
            step(&mut machine, &mut memory, 0).unwrap();
            assert_eq!(machine.gpr[0], 0);
        }
        assert_eq!((machine.target, machine.link, machine.cp0.cause), (START, true, 0));
    }

    #[test]
    fn a_bad_fetch_faults_at_its_own_address() {
        let mut machine = machine();
        machine.pc = START + 2;
        let mut memory = Memory { ram: &mut [0; 8], rom: &[] };
        step(&mut machine, &mut memory, 0).unwrap();
        assert_eq!((machine.cp0.epc, machine.cp0.bad_vaddr), (START + 2, START + 2));
        assert_eq!(machine.cp0.cause, 4 << 2);
        step(&mut machine, &mut memory, 0).unwrap();
        assert_eq!((machine.cp0.cause, machine.cp0.bad_vaddr), (6 << 2, START + 2));
    }
}
