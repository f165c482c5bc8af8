//! The image of a good world, read and translated by the second emulator, has what its files say and nothing shared.

use std::collections::BTreeMap;

use super::{answer, Task};
use crate::address::{translate, PAddr, Use, VAddr};
use crate::elves::make::{Elf, Header, LOAD};
use crate::elves::worlds::{self, World};
use crate::exception::{Exception, Trouble};
use crate::generate::random::Random;
use crate::image::{read, RAM_LENGTH};
use crate::machine::Machine;

const BUDGET: &[u8] = b"0300000010\n";
const STACK_PAGE: u32 = 0x7_ffff;

/// A machine and RAM as the reader makes them of a world's image.
struct Loaded {
    machine: Machine,
    ram: Vec<u8>,
}

/// Makes and reads the image of a world, unless it does not fit.
fn loaded(world: &World) -> Option<Loaded> {
    match answer(&Task::User, &world.files(), BUDGET) {
        Ok(text) => {
            let mut ram = vec![0xa5; RAM_LENGTH];
            let machine = read(&text, &mut ram).unwrap().machine;
            Some(Loaded { machine, ram })
        }
        Err(refusal) => {
            assert!(matches!(refusal.number, 18 | 19), "{}: {refusal:?}", world.name);
            None
        }
    }
}

impl Loaded {
    /// Translates an address under an ASID.
    fn translated(&mut self, asid: u32, address: u32, purpose: Use) -> Result<u64, Trouble> {
        self.machine.cp0.entry_hi = asid;
        let PAddr(physical) = translate(&self.machine, VAddr(address as u64), 1, purpose)?;
        Ok(physical)
    }

    /// Reads a byte under an ASID.
    fn byte(&mut self, asid: u32, address: u32) -> u8 {
        let physical = self.translated(asid, address, Use::Load).unwrap();
        self.ram[physical as usize]
    }
}

/// Gives the segments that a program is made of; where a note begins too, worlds have only notes.
fn segments(elf: &Elf) -> Vec<&Header> {
    let noted = |h: &&Header| elf.headers.iter().any(|n| n.kind != LOAD && n.vaddr == h.vaddr);
    elf.headers.iter().filter(|h| h.kind == LOAD && !noted(h)).collect()
}

/// Gives the pages that a program should have, and whether they can be stored to.
fn pages(elf: &Elf) -> BTreeMap<u32, bool> {
    let mut pages = BTreeMap::from([(STACK_PAGE, true)]);
    for segment in segments(elf) {
        for page in segment.vaddr >> 12..=(segment.vaddr + segment.memsz - 1) >> 12 {
            *pages.entry(page).or_insert(false) |= segment.flags & 2 != 0;
        }
    }
    pages
}

/// Gives the byte that a program should have at an address.
fn wanted(elf: &Elf, address: u32) -> u8 {
    let inside = |s: &&Header| s.vaddr <= address && address - s.vaddr < s.memsz;
    let of = |s: &Header| s.bytes.get((address - s.vaddr) as usize).copied();
    segments(elf).into_iter().find(inside).and_then(of).unwrap_or(0)
}

/// Sees that every page of a program has its bytes and its right to be stored to.
fn see_program(world: &World, loaded: &mut Loaded, asid: u32) {
    let elf = &world.programs[asid as usize - 1];
    for (page, writable) in pages(elf) {
        for offset in 0..4096 {
            let address = page << 12 | offset;
            let byte = loaded.byte(asid, address);
            assert_eq!(byte, wanted(elf, address), "{}: {asid} {address:x}", world.name);
        }
        let address = VAddr((page as u64) << 12);
        let stored = loaded.translated(asid, page << 12, Use::Store);
        match stored {
            Ok(_) => assert!(writable, "{}: {asid} {page:x}", world.name),
            Err(trouble) => {
                assert_eq!(trouble, Trouble::Exception(Exception::Modified(address)));
                assert!(!writable, "{}: {asid} {page:x}", world.name);
            }
        }
    }
}

/// Gives the physical pages that an ASID reaches, by page; every slot's pair is tried.
fn reached(loaded: &mut Loaded, asid: u32) -> BTreeMap<u32, u64> {
    let pairs: Vec<u32> = loaded.machine.tlb.iter().map(|slot| slot.page >> 12).collect();
    let mut reached = BTreeMap::new();
    for page in pairs.into_iter().flat_map(|pair| [pair, pair + 1]) {
        if page <= STACK_PAGE {
            if let Ok(physical) = loaded.translated(asid, page << 12, Use::Load) {
                reached.insert(page, physical >> 12);
            }
        }
    }
    reached
}

/// Sees that no physical page is reached twice or is the kernel's, and that no page is reached but a program's own.
fn see_apart(world: &World, loaded: &mut Loaded) {
    let mut owners = BTreeMap::new();
    let physical = |h: &&Header| (h.vaddr & 0x1fff_ffff) + h.memsz - 1;
    let last = segments(&world.kernel).iter().map(physical).max().unwrap() >> 12;
    for asid in 0..=255 {
        let found = reached(loaded, asid);
        let own = match world.programs.get((asid as usize).wrapping_sub(1)) {
            Some(elf) => pages(elf),
            None => BTreeMap::new(),
        };
        assert!(found.keys().eq(own.keys()), "{}: {asid}", world.name);
        for (page, frame) in found {
            assert!(frame > last as u64 && frame < 16, "{}: {asid} {page:x}", world.name);
            assert_eq!(owners.insert(frame, (asid, page)), None, "{}", world.name);
        }
    }
}

/// Sees that the kernel's pages hold the kernel.
fn see_kernel(world: &World, loaded: &Loaded) {
    for segment in segments(&world.kernel) {
        let home = (segment.vaddr & 0x1fff_ffff) as usize;
        for at in 0..segment.memsz as usize {
            let byte = segment.bytes.get(at).copied().unwrap_or(0);
            assert_eq!(loaded.ram[home + at], byte, "{} {at:x}", world.name);
        }
    }
}

/// Sees everything of a world; tells whether it fits.
fn see(world: &World) -> bool {
    let Some(mut loaded) = loaded(world) else { return false };
    assert_eq!(loaded.machine.pc, world.programs[0].entry as u64);
    assert_eq!((loaded.machine.cp0.status, loaded.machine.cp0.asid()), (0x10, 1));
    assert_eq!(loaded.machine.gpr[29], 0x7fff_fff0);
    see_kernel(world, &loaded);
    for asid in 1..=world.programs.len() as u32 {
        see_program(world, &mut loaded, asid);
    }
    see_apart(world, &mut loaded);
    true
}

#[test]
fn curated_worlds_stand_where_their_files_say() {
    for world in worlds::curated() {
        assert!(see(&world), "{}", world.name);
    }
}

#[test]
fn random_worlds_stand_where_their_files_say() {
    let mut seen = 0;
    for number in 0..150 {
        let mut random = Random::new(17, number);
        seen += see(&worlds::random(&mut random, format!("world-{number}"))) as u32;
    }
    assert!(seen > 100, "{seen}");
}
