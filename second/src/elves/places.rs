//! Good worlds, and those that are one page too large.

use super::make::*;
use super::worlds::curated;
use super::{kernel, over, program, user, Case};

/// Gives the cases.
pub fn cases() -> Vec<Case> {
    let mut cases: Vec<Case> =
        curated().iter().map(|world| user(&world.name, world.files())).collect();
    // One program of 14 pages fits beside the kernel and its own stack; one of 15 does not.
    for size in [0xd001, 0xe000, 0xe001, 0xefff, 0xf000, 0x1_0000, 0x1_0001] {
        let elf = Elf::of(vec![load(0x40_0000, marks(1, 4), size, WRITE)]);
        cases.push(over(format!("room-{size:x}"), elf.bytes()));
        let files = vec![kernel().bytes(), program().bytes(), elf.bytes()];
        cases.push(user(format!("room-second-{size:x}"), files));
        let shifted = Elf::of(vec![load(0x40_0ffc, marks(1, 4), size, WRITE)]);
        cases.push(over(format!("room-shifted-{size:x}"), shifted.bytes()));
    }
    // Programs of three pages: five of them fill RAM but for none.
    for count in 4..8 {
        let mut files = vec![program().bytes(); count + 1];
        files[0] = kernel().bytes();
        cases.push(user(format!("{count}-times-three"), files.clone()));
        files[count] = b"\x7fELF".to_vec();
        cases.push(user(format!("{count}-times-three-and-a-stump"), files));
    }
    // The vectors come before the room, and both before the text.
    let mut blank = kernel();
    blank.headers[0].bytes.fill(0);
    let large = Elf::of(vec![load(0x40_0000, marks(1, 0x9000), 0xf000, WRITE)]).bytes();
    cases.push(user("no-vector-and-no-room", vec![blank.bytes(), large.clone()]));
    cases.push(over("no-room-and-long", large));
    // Refusals of several files: the kernel's, then the first program's.
    let broken = program().entered(2).bytes();
    let not_elf = b"#!/bin/sh\n".to_vec();
    cases.push(user("two-broken", vec![kernel().bytes(), broken.clone(), not_elf.clone()]));
    cases.push(user("three-broken", vec![blank.bytes(), broken, not_elf.clone()]));
    cases.push(user("no-vector-and-broken", vec![blank.bytes(), not_elf]));
    cases
}
