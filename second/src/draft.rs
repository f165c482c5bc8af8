//! Drafts of images, from which texts are written.

use std::collections::BTreeMap;
use std::fmt::Write;

use crate::cp0::number;
use crate::many::Image;

/// The physical address where drafts put their code.
pub const CODE: u32 = 0x1000;
/// The same place in the unmapped cached segment.
pub const CODE_HIGH: u64 = 0xffff_ffff_8000_1000;
/// The start of RAM in the unmapped cached segment.
pub const RAM_HIGH: u64 = 0xffff_ffff_8000_0000;

/// An image being drafted.
#[derive(Clone, Debug)]
pub struct Draft {
    name: String,
    lines: u32,
    rom: Option<String>,
    registers: Vec<(u32, u64)>,
    memory: BTreeMap<u32, u64>,
    cp0: Vec<(u32, u64)>,
    slots: Vec<(u32, [u32; 4])>,
    budget: u32,
}

impl Draft {
    /// Starts a draft that changes nothing in the fresh machine.
    pub fn fresh(name: impl Into<String>) -> Draft {
        Draft {
            name: name.into(),
            lines: 0,
            rom: None,
            registers: Vec::new(),
            memory: BTreeMap::new(),
            cp0: Vec::new(),
            slots: Vec::new(),
            budget: 0,
        }
    }

    /// Starts a draft in Kernel mode, Status zero, with PC at the code.
    pub fn kernel(name: impl Into<String>) -> Draft {
        Draft::fresh(name).cp0(number::STATUS, 0).pc(CODE_HIGH)
    }

    /// Sets a register by its frame number.
    pub fn reg(mut self, number: u32, value: u64) -> Draft {
        self.registers.push((number, value));
        self
    }

    /// Sets PC.
    pub fn pc(self, value: u64) -> Draft {
        self.reg(0x22, value)
    }

    /// Moves a value to a CP0 register.
    pub fn cp0(mut self, number: u32, value: u64) -> Draft {
        self.cp0.push((number, value));
        self
    }

    /// Writes a TLB slot from PageMask, EntryHi, EntryLo0 and EntryLo1.
    pub fn slot(mut self, place: u32, values: [u32; 4]) -> Draft {
        self.slots.push((place, values));
        self
    }

    /// Puts a doubleword into RAM.
    pub fn data(mut self, address: u32, value: u64) -> Draft {
        self.memory.insert(address, value);
        self
    }

    /// Puts words into RAM from an address on.
    pub fn words(mut self, address: u32, words: &[u32]) -> Draft {
        for (place, word) in words.iter().enumerate() {
            let at = address + 4 * place as u32;
            let eight = self.memory.entry(at & !7).or_insert(0);
            let shift = if at & 4 == 0 { 32 } else { 0 };
            *eight = *eight & !(0xffff_ffff << shift) | (*word as u64) << shift;
        }
        self
    }

    /// Puts words at the code's place and sets the budget to their number.
    pub fn code(self, words: &[u32]) -> Draft {
        self.words(CODE, words).budget(words.len() as u32)
    }

    /// Sets the budget.
    pub fn budget(mut self, steps: u32) -> Draft {
        self.budget = steps;
        self
    }

    /// Sets the interrupt lines.
    pub fn lines(mut self, lines: u32) -> Draft {
        self.lines = lines;
        self
    }

    /// Names the file of the boot ROM.
    pub fn rom(mut self, name: &str) -> Draft {
        self.rom = Some(name.to_string());
        self
    }

    /// Writes the draft's frames.
    pub fn text(&self) -> String {
        let mut text = String::new();
        for (number, value) in &self.cp0 {
            let _ = writeln!(text, "04{number:02x}{value:016x}");
        }
        for (place, [mask, hi, lo0, lo1]) in &self.slots {
            let _ = writeln!(text, "05{place:02x}{mask:08x}{hi:08x}{lo0:08x}{lo1:08x}");
        }
        for (number, value) in &self.registers {
            let _ = writeln!(text, "01{number:02x}{value:016x}");
        }
        for (address, value) in &self.memory {
            let _ = writeln!(text, "02{address:08x}{value:016x}");
        }
        let _ = writeln!(text, "03{:08x}", self.budget);
        text
    }

    /// Finishes the draft.
    pub fn image(self) -> Image {
        let text = self.text().into_bytes();
        Image { name: self.name, lines: self.lines, rom: self.rom, text }
    }
}

#[cfg(test)]
mod tests {
    use super::*;
    use crate::answer::short_answer;

    #[test]
    fn words_are_packed_in_pairs() {
        let draft = Draft::fresh("d").words(4, &[1, 2, 3]).words(8, &[9]).pc(7).budget(5);
        assert_eq!(
            draft.text(),
            "01220000000000000007\n02000000000000000000000001\n02000000080000000900000003\n\
            0300000005\n"
        );
    }

    #[test]
    fn drafts_run() {
        let draft = Draft::kernel("d").reg(1, 3).code(&[0x0021_1021]);
        assert_eq!(
            short_answer(draft.text().as_bytes()),
            "0f0000000001\n01010000000000000003\n01020000000000000006\n0122ffffffff80001004\n"
        );
    }
}
