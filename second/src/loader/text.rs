//! The text of an image, and what the reader and the machine say to it (L22, L25 to L27).

use std::fmt::Write;

use super::{Placed, Refusal};
use crate::cp0::{number, STATUS_CU0, STATUS_USER};
use crate::image::{self, Start, RAM_LENGTH, TEXT_MOST};
use crate::word::extend;

/// The stack pointer's number and what a User program finds in it.
const STACK_POINTER: u32 = 29;
const STACK_TOP: u64 = 0x7fff_fff0;
/// PC's number in a register frame.
const PC: u32 = 0x22;
/// The ASID of the program that begins.
const FIRST: u32 = 1;

/// Gives the memory frames of RAM.
fn memory(ram: &[u8]) -> String {
    let mut text = String::new();
    for (place, eight) in ram.chunks_exact(8).enumerate() {
        let value = eight.iter().fold(0, |value, byte| value << 8 | *byte as u64);
        if value != 0 {
            let _ = writeln!(text, "02{:08x}{value:016x}", 8 * place);
        }
    }
    text
}

/// Gives the frames of the slots that are taken.
fn slots(placed: &Placed) -> String {
    let mut text = String::new();
    for (place, slot) in placed.slots.iter().enumerate() {
        let (mask, hi) = (slot.page_mask, slot.entry_hi);
        let (lo0, lo1) = (slot.entry_lo0, slot.entry_lo1);
        let _ = writeln!(text, "05{place:02x}{mask:08x}{hi:08x}{lo0:08x}{lo1:08x}");
    }
    text
}

/// Gives the frame of a register of CP0.
fn cp0(number: u32, value: u32) -> String {
    format!("04{number:02x}{value:016x}\n")
}

/// Gives the frame of a register.
fn register(number: u32, value: u64) -> String {
    format!("01{number:02x}{value:016x}\n")
}

/// Refuses for the sake of the whole image.
fn refused<T>(number: u32, about: u32) -> Result<T, Refusal> {
    Err(Refusal { number, file: 0, about })
}

/// Ends a text with the settings and sees that it is an image; gives what the reader makes of it (L25, L26).
fn finish(head: String, settings: &[u8]) -> Result<(Vec<u8>, Start, Vec<u8>), Refusal> {
    let mut text = head.into_bytes();
    text.extend_from_slice(settings);
    if text.len() > TEXT_MOST {
        return refused(19, text.len() as u32);
    }
    let mut ram = vec![0; RAM_LENGTH];
    match image::read(&text, &mut ram) {
        Ok(start) => Ok((text, start, ram)),
        Err(why) => refused(20, why.number),
    }
}

/// Gives the number of what the settings undid first, or nothing (L27).
fn undone(placed: &Placed, start: &Start, ram: &[u8]) -> Option<u32> {
    let machine = &start.machine;
    let faults = [
        machine.tlb != placed.tlb(),
        ram != placed.ram,
        machine.cp0.is_kernel(),
        machine.cp0.status & STATUS_CU0 != 0,
        machine.cp0.asid() != FIRST,
        machine.pc >= 0x8000_0000,
    ];
    faults.iter().position(|fault| *fault).map(|place| place as u32 + 1)
}

/// Gives the text of User programs, the first of which begins.
pub fn user(placed: &Placed, entry: u32, settings: &[u8]) -> Result<Vec<u8>, Refusal> {
    let head = memory(&placed.ram)
        + &slots(placed)
        + &cp0(number::STATUS, STATUS_USER)
        + &cp0(number::ENTRY_HI, FIRST)
        + &register(STACK_POINTER, STACK_TOP)
        + &register(PC, extend(entry));
    let (text, start, ram) = finish(head, settings)?;
    match undone(placed, &start, &ram) {
        Some(about) => refused(21, about),
        None => Ok(text),
    }
}

/// Gives the text of a program in Kernel mode.
pub fn kernel(ram: &[u8], entry: u32, settings: &[u8]) -> Result<Vec<u8>, Refusal> {
    let head = memory(ram) + &cp0(number::STATUS, 0) + &register(PC, extend(entry));
    finish(head, settings).map(|(text, ..)| text)
}
