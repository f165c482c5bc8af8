//! The divisions by zero that the run of an image executes.

use std::cmp::Ordering;
use std::collections::BTreeSet;

use crate::assemble::{special, SYSCALL};
use crate::draft::Draft;
use crate::image::{read, RAM_LENGTH};
use crate::instruction::{Instruction as I, MulDiv};
use crate::machine::Machine;
use crate::many::Image;
use crate::memory::Memory;
use crate::step::{due, step};

/// The function of a division by zero, and how its dividend, read as signed, stands to zero.
pub type ByZero = (u32, Ordering);

/// Gives every division by zero there is.
pub fn all_by_zero() -> BTreeSet<ByZero> {
    let signs = [Ordering::Less, Ordering::Equal, Ordering::Greater];
    [0x1a, 0x1b, 0x1e, 0x1f].iter().flat_map(|f| signs.map(|sign| (*f, sign))).collect()
}

/// Gives the division by zero that the next step executes, if it does.
fn next(machine: &Machine, memory: &Memory, lines: u32) -> Option<ByZero> {
    let (code, instruction) = due(machine, memory, lines).ok()?;
    let operands = [code.rs(), code.rt()].map(|register| machine.gpr[register] as i64);
    let [dividend, divisor] = match instruction {
        I::MulDiv(MulDiv::Div | MulDiv::Divu) => operands.map(|operand| operand as i32 as i64),
        I::MulDiv(MulDiv::Ddiv | MulDiv::Ddivu) => operands,
        _ => return None,
    };
    (divisor == 0).then_some((code.function(), dividend.cmp(&0)))
}

/// Gives the divisions by zero of an image without a boot ROM.
pub fn by_zero(image: &Image) -> BTreeSet<ByZero> {
    let mut found = BTreeSet::new();
    let mut ram = vec![0; RAM_LENGTH];
    if let Ok(mut start) = read(&image.text, &mut ram) {
        let mut memory = Memory { ram: &mut ram, rom: &[] };
        for _ in 0..start.budget {
            found.extend(next(&start.machine, &memory, image.lines));
            if step(&mut start.machine, &mut memory, image.lines).is_err() {
                break;
            }
        }
    }
    found
}

#[test]
fn only_executed_divisions_by_zero_are_counted() {
    let word = special(0x1a, 1, 2, 0, 0);
    let double = special(0x1e, 1, 2, 0, 0);
    let code = [word, double, SYSCALL, special(0x1f, 1, 0, 0, 0)];
    let draft = Draft::kernel("d").reg(1, 1 << 63 | 5).reg(2, 1 << 32).code(&code);
    assert_eq!(by_zero(&draft.image()), BTreeSet::from([(0x1a, Ordering::Greater)]));
}
