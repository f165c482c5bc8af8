//! Physical memory: RAM from 0 and boot ROM from 1FC00000, big-endian.

use crate::address::PAddr;

/// The physical address of the boot ROM.
pub const ROM_START: u64 = 0x1fc0_0000;
/// The longest RAM.
pub const RAM_MOST: usize = 16_777_216;
/// The longest boot ROM.
pub const ROM_MOST: usize = 4_194_304;

/// The lent RAM and boot ROM.
pub struct Memory<'a> {
    pub ram: &'a mut [u8],
    pub rom: &'a [u8],
}

/// Gives the place of the doubleword at a physical address in a store of some length.
#[inline]
fn place(address: PAddr, start: u64, length: usize) -> Option<usize> {
    let offset = (address.0 & !7).checked_sub(start)?;
    if offset < length as u64 {
        Some(offset as usize)
    } else {
        None
    }
}

/// Reads eight bytes at a place as one big-endian doubleword.
#[inline]
fn doubleword(bytes: &[u8], at: usize) -> u64 {
    let mut eight = [0; 8];
    eight.copy_from_slice(&bytes[at..at + 8]);
    u64::from_be_bytes(eight)
}

impl Memory<'_> {
    /// Tells whether RAM has a length that is allowed.
    pub fn ram_is_allowed(&self) -> bool {
        let length = self.ram.len();
        length % 8 == 0 && (8..=RAM_MOST).contains(&length)
    }

    /// Tells whether the boot ROM has a length that is allowed.
    pub fn rom_is_allowed(&self) -> bool {
        let length = self.rom.len();
        length % 8 == 0 && length <= ROM_MOST
    }

    /// Reads the aligned doubleword that holds an address, or nothing where none answers.
    #[inline]
    pub fn read(&self, address: PAddr) -> Option<u64> {
        if let Some(at) = place(address, 0, self.ram.len()) {
            Some(doubleword(self.ram, at))
        } else {
            place(address, ROM_START, self.rom.len()).map(|at| doubleword(self.rom, at))
        }
    }

    /// Tells whether a store to an address is answered.
    #[inline]
    pub fn takes_store(&self, address: PAddr) -> bool {
        place(address, 0, self.ram.len()).is_some()
    }

    /// Replaces the bits under a mask in the aligned RAM doubleword that holds an address.
    #[inline]
    pub fn write(&mut self, address: PAddr, bits: u64, mask: u64) {
        if let Some(at) = place(address, 0, self.ram.len()) {
            let merged = doubleword(self.ram, at) & !mask | bits & mask;
            self.ram[at..at + 8].copy_from_slice(&merged.to_be_bytes());
        }
    }
}

#[cfg(test)]
mod tests {
    use super::*;

    #[test]
    fn ram_and_rom_answer_and_nothing_else() {
        let mut ram = [0u8; 16];
        ram[15] = 0x77;
        let rom = [1u8, 2, 3, 4, 5, 6, 7, 8];
        let memory = Memory { ram: &mut ram, rom: &rom };
        assert_eq!(memory.read(PAddr(0)), Some(0));
        assert_eq!(memory.read(PAddr(11)), Some(0x77));
        assert_eq!(memory.read(PAddr(16)), None);
        assert_eq!(memory.read(PAddr(ROM_START + 7)), Some(0x0102_0304_0506_0708));
        assert_eq!(memory.read(PAddr(ROM_START + 8)), None);
        assert_eq!(memory.read(PAddr(ROM_START - 1)), None);
        assert_eq!(memory.read(PAddr(0xf_ffff_fff8)), None);
        assert_eq!(memory.read(PAddr(0x1_0000_0000)), None);
        assert!(memory.takes_store(PAddr(15)) && !memory.takes_store(PAddr(ROM_START)));
    }

    #[test]
    fn writes_touch_only_the_mask() {
        let mut ram = [0xffu8; 16];
        let mut memory = Memory { ram: &mut ram, rom: &[] };
        memory.write(PAddr(9), 0, 0x00ff_0000_0000_0000);
        memory.write(PAddr(16), 0, u64::MAX);
        assert_eq!(memory.read(PAddr(8)), Some(0xff00_ffff_ffff_ffff));
        assert_eq!(memory.read(PAddr(0)), Some(u64::MAX));
    }

    #[test]
    fn lengths_are_checked() {
        for (length, expected) in
            [(0, false), (8, true), (12, false), (RAM_MOST, true), (RAM_MOST + 8, false)]
        {
            let mut ram = vec![0; length];
            assert_eq!(Memory { ram: &mut ram, rom: &[] }.ram_is_allowed(), expected);
        }
        for (length, expected) in
            [(0, true), (8, true), (4, false), (ROM_MOST, true), (ROM_MOST + 8, false)]
        {
            let rom = vec![0; length];
            assert_eq!(Memory { ram: &mut [], rom: &rom }.rom_is_allowed(), expected);
        }
    }
}
