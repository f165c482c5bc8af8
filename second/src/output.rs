//! Answers in frames: the short one of `cardrun` and the whole state.

use std::fmt::Write;

use crate::cp0::is_kept;
use crate::image::Refusal;
use crate::machine::Machine;
use crate::run::Ending;

/// The numbers of HI, LO and PC in register frames.
const HI: u32 = 0x20;
const LO: u32 = 0x21;
const PC: u32 = 0x22;

/// Gives the answer to a refused image or run.
pub fn refusal(refusal: Refusal) -> String {
    format!("0e{:02x}{:08x}\n", refusal.number, refusal.line)
}

/// Gives the line that tells how a run ended.
fn ending(ending: Ending) -> String {
    format!("0f{:02x}{:08x}\n", ending.number, ending.steps)
}

/// Gives the value of a register by its frame number.
fn register(machine: &Machine, number: u32) -> u64 {
    match number {
        HI => machine.hi,
        LO => machine.lo,
        PC => machine.pc,
        _ => machine.gpr[number as usize],
    }
}

/// Gives the register frames of a machine, those of zero only if asked for, PC always.
fn registers(machine: &Machine, with_zero: bool) -> String {
    let mut text = String::new();
    for number in 0..=PC {
        let value = register(machine, number);
        if with_zero || value != 0 || number == PC {
            let _ = writeln!(text, "01{number:02x}{value:016x}");
        }
    }
    text
}

/// Gives the answer of `cardrun`.
pub fn short(how: Ending, machine: &Machine) -> String {
    ending(how) + &registers(machine, false)
}

/// Gives the whole state after a run.
pub fn whole(how: Ending, machine: &Machine, ram: &[u8]) -> String {
    let mut text = ending(how) + &registers(machine, true);
    let (slot, link) = (machine.slot as u32, machine.link as u32);
    let _ = writeln!(text, "0a{slot:02x}{:016x}{link:02x}", machine.target);
    for number in (0..32).filter(|number| is_kept(*number)) {
        let _ = writeln!(text, "04{number:02x}{:016x}", machine.cp0.read(number));
    }
    for (place, slot) in machine.tlb.iter().enumerate() {
        let values = slot.values();
        let _ = writeln!(
            text,
            "05{place:02x}{:08x}{:08x}{:08x}{:08x}",
            values.page_mask, values.entry_hi, values.entry_lo0, values.entry_lo1
        );
    }
    for (place, eight) in ram.chunks_exact(8).enumerate() {
        let value = eight.iter().fold(0, |value, byte| value << 8 | *byte as u64);
        if value != 0 {
            let _ = writeln!(text, "02{:08x}{value:016x}", place * 8);
        }
    }
    text
}

#[cfg(test)]
mod tests {
    use super::*;

    #[test]
    fn refusals_name_their_line() {
        assert_eq!(refusal(Refusal { number: 8, line: 0x1234 }), "0e0800001234\n");
    }

    #[test]
    fn short_answers_leave_zeros_out() {
        let mut machine = Machine::fresh();
        machine.gpr[31] = 5;
        machine.lo = 6;
        machine.pc = 0;
        assert_eq!(
            short(Ending { number: 16, steps: 10 }, &machine),
            "0f100000000a\n011f0000000000000005\n01210000000000000006\n01220000000000000000\n"
        );
    }

    #[test]
    fn whole_answers_hold_everything() {
        let mut machine = Machine::fresh();
        machine.slot = true;
        machine.target = 0x1234;
        machine.cp0.cause = 0x8000_0000;
        let mut ram = vec![0; 32];
        ram[23] = 7;
        let text = whole(Ending { number: 0, steps: 0 }, &machine, &ram);
        let lines: Vec<&str> = text.lines().collect();
        assert_eq!(lines.len(), 1 + 35 + 1 + 20 + 48 + 1);
        assert_eq!(lines[35], "0122ffffffffbfc00000");
        assert_eq!(lines[36], "0a01000000000000123400");
        assert_eq!(lines[37], "04000000000000000000");
        assert_eq!(lines[49], "040dffffffff80000000");
        assert_eq!(lines[56], "041e0000000000000000");
        assert_eq!(lines[57], "050000000000800000000000000000000000");
        assert_eq!(lines[105], "02000000100000000000000007");
        assert!(text.ends_with('\n'));
    }
}
