//! The twelve bench cards, run as instructions on a whole machine.

use crate::cp0::number;
use crate::machine::Machine;
use crate::memory::Memory;
use crate::step::step;
use crate::tlb::{mask_is_legal, Slot, SlotValues};

const START: u64 = 0xffff_ffff_8000_0000;

/// Gives a Kernel machine at the start of RAM with two operands in r1 and r2.
fn machine(a: u64, b: u64) -> Machine {
    let mut machine = Machine::fresh();
    machine.cp0.status = 0;
    machine.pc = START;
    machine.gpr[1] = a;
    machine.gpr[2] = b;
    machine
}

/// Steps a machine once over a word, with eight bytes of data at 8, and gives these back.
fn once(machine: &mut Machine, word: u32, data: u64) -> u64 {
    let mut ram = vec![0; 0x3000];
    ram[..4].copy_from_slice(&word.to_be_bytes());
    ram[8..16].copy_from_slice(&data.to_be_bytes());
    let mut memory = Memory { ram: &mut ram, rom: &[] };
    step(machine, &mut memory, 0).unwrap();
    let mut eight = [0; 8];
    eight.copy_from_slice(&ram[8..16]);
    u64::from_be_bytes(eight)
}

#[test]
fn cards_1_and_2_sums() {
    let mut addu = machine(0x7fff_ffff, 1);
    once(&mut addu, 0x0022_1821, 0);
    assert_eq!(addu.gpr[3], 0xffff_ffff_8000_0000);
    let mut add = machine(0x7fff_ffff, 1);
    add.gpr[3] = 0x55;
    once(&mut add, 0x0022_1820, 0);
    assert_eq!((add.gpr[3], add.cp0.cause, add.pc), (0x55, 12 << 2, START + 0x180));
}

#[test]
fn cards_3_to_5_products_and_quotients() {
    let minus = u64::MAX;
    let mut dmultu = machine(minus, minus);
    once(&mut dmultu, 0x0022_001d, 0);
    assert_eq!((dmultu.hi, dmultu.lo), (minus - 1, 1));
    let mut div = machine((-7i64) as u64, 2);
    once(&mut div, 0x0022_001a, 0);
    assert_eq!((div.lo, div.hi), ((-3i64) as u64, minus));
    let mut lowest = machine(0xffff_ffff_8000_0000, minus);
    once(&mut lowest, 0x0022_001a, 0);
    assert_eq!((lowest.lo, lowest.hi), (0xffff_ffff_8000_0000, 0));
}

#[test]
fn cards_6_to_8_shift_and_loads() {
    let mut sra = machine(0, 0x8000_0000);
    once(&mut sra, 0x0002_1fc3, 0);
    assert_eq!(sra.gpr[3], u64::MAX);
    let data = 0x80 << 56;
    let mut lb = machine(START + 8, 0);
    once(&mut lb, 0x8023_0000, data);
    assert_eq!(lb.gpr[3], 0xffff_ffff_ffff_ff80);
    let mut lbu = machine(START + 8, 0);
    once(&mut lbu, 0x9023_0000, data);
    assert_eq!(lbu.gpr[3], 0x80);
    let mut lwl = machine(START + 9, 0);
    lwl.gpr[3] = 0xaabb_ccdd;
    once(&mut lwl, 0x8823_0000, 0x1122_3344 << 32);
    assert_eq!(lwl.gpr[3], 0x2233_44dd);
}

#[test]
fn card_9_masks() {
    assert!(mask_is_legal(0x6000) && !mask_is_legal(0x2000));
}

#[test]
fn card_10_translation() {
    let values = SlotValues { page_mask: 0, entry_hi: 0x0040_0001, entry_lo0: 0x86, entry_lo1: 0 };
    let mut machine = machine(0x0040_0123, 0x77);
    machine.tlb[0] = Slot::written(values);
    machine.cp0.write(number::ENTRY_HI, 1);
    let mut ram = vec![0; 0x3000];
    // sb r2, 0(r1); lw r3, 0x0edd(r1)
    ram[..8].copy_from_slice(&[0xa0, 0x22, 0, 0, 0x8c, 0x23, 0x0e, 0xdd]);
    let mut memory = Memory { ram: &mut ram, rom: &[] };
    step(&mut machine, &mut memory, 0).unwrap();
    step(&mut machine, &mut memory, 0).unwrap();
    assert_eq!(ram[0x2123], 0x77);
    assert_eq!((machine.cp0.cause, machine.cp0.bad_vaddr), (2 << 2, 0x0040_1000));
    assert_eq!(machine.pc, START + 0x180);
}

#[test]
fn card_11_refill() {
    let mut machine = machine(0x0040_0123, 0);
    once(&mut machine, 0x8023_0000, 0);
    assert_eq!((machine.cp0.context, machine.pc), (0x2000, START));
}

#[test]
fn card_12_conditional_store() {
    let mut machine = machine(START + 8, 0x99);
    assert_eq!(once(&mut machine, 0xe022_0000, 0x1122_3344_5566_7788), 0x1122_3344_5566_7788);
    assert_eq!(machine.gpr[2], 0);
}
