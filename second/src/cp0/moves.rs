//! Moves to and from the registers of CP0.

use super::*;
use crate::word::extend;

/// Tells whether a register number is one of the kept ones.
pub fn is_kept(register: u32) -> bool {
    matches!(register, 0..=6 | 8..=17 | 28..=30)
}

/// Tells whether a move of a value to a register asks for something not built.
pub fn move_is_not_built(register: u32, value: u64) -> bool {
    match register {
        number::STATUS => value as u32 & STATUS_NOT_BUILT != 0,
        number::PAGE_MASK => !mask_is_legal(value as u32),
        _ => false,
    }
}

impl Cp0 {
    /// Reads a register as a doubleword move does, Cause without the lines.
    pub fn read(&self, register: u32) -> u64 {
        match register {
            number::INDEX => extend(self.index),
            number::RANDOM => extend(self.random),
            number::ENTRY_LO0 => extend(self.entry_lo0),
            number::ENTRY_LO1 => extend(self.entry_lo1),
            number::CONTEXT => self.context,
            number::PAGE_MASK => extend(self.page_mask),
            number::WIRED => extend(self.wired),
            number::BAD_VADDR => self.bad_vaddr,
            number::COUNT => extend(self.count),
            number::ENTRY_HI => extend(self.entry_hi),
            number::COMPARE => extend(self.compare),
            number::STATUS => extend(self.status),
            number::CAUSE => extend(self.cause),
            number::EPC => self.epc,
            number::PRID => extend(self.prid),
            number::CONFIG => extend(self.config),
            number::LL_ADDR => extend(self.ll_addr),
            number::TAG_LO => extend(self.tag_lo),
            number::TAG_HI => extend(self.tag_hi),
            number::ERROR_EPC => self.error_epc,
            _ => 0,
        }
    }

    /// Reads a register as a program sees it, with the lines in Cause.
    pub fn read_with_lines(&self, register: u32, lines: u32) -> u64 {
        let value = self.read(register);
        if register == number::CAUSE {
            value | (lines as u64) << 10
        } else {
            value
        }
    }

    /// Writes a register as a doubleword move does; the value must be one that is built.
    pub fn write(&mut self, register: u32, value: u64) {
        let word = value as u32;
        match register {
            number::INDEX => self.index = word & INDEX_BITS,
            number::ENTRY_LO0 => self.entry_lo0 = word & ENTRY_LO_BITS,
            number::ENTRY_LO1 => self.entry_lo1 = word & ENTRY_LO_BITS,
            number::CONTEXT => {
                self.context = value & CONTEXT_BASE_BITS | self.context & !CONTEXT_BASE_BITS
            }
            number::PAGE_MASK => self.page_mask = word,
            number::WIRED => {
                self.wired = word & WIRED_BITS;
                self.random = RANDOM_TOP;
            }
            number::COUNT => self.count = word,
            number::ENTRY_HI => self.entry_hi = word & ENTRY_HI_BITS,
            number::COMPARE => {
                self.compare = word;
                self.cause &= !CAUSE_TIMER;
            }
            number::STATUS => self.status = word & STATUS_BITS,
            number::CAUSE => self.cause = self.cause & !CAUSE_SOFTWARE | word & CAUSE_SOFTWARE,
            number::EPC => self.epc = value,
            number::CONFIG => self.config = CONFIG_BASE | word & CONFIG_BITS,
            number::TAG_LO => self.tag_lo = word,
            number::TAG_HI => self.tag_hi = word,
            number::ERROR_EPC => self.error_epc = value,
            _ => {}
        }
    }
}

#[cfg(test)]
mod tests {
    use super::*;

    const ONES: u64 = u64::MAX;

    #[test]
    fn moves_keep_their_bits() {
        let mut cp0 = Cp0::fresh();
        for register in (0..32).filter(|r| *r != number::STATUS && *r != number::PAGE_MASK) {
            cp0.write(register, ONES);
        }
        cp0.write(number::STATUS, 0x1dff_ff17);
        cp0.write(number::PAGE_MASK, 0xabcd_0000_0000_6000);
        assert!(cp0.in_range());
        let expected: [(u32, u64); 24] = [
            (0, 0xffff_ffff_8000_003f),
            (1, 47),
            (2, 0x3fff_ffff),
            (3, 0x3fff_ffff),
            (4, 0xffff_ffff_ff80_0000),
            (5, 0x6000),
            (6, 0x3f),
            (7, 0),
            (8, 0),
            (9, ONES),
            (10, 0xffff_ffff_ffff_e0ff),
            (11, ONES),
            (12, 0x1040_ff17),
            (13, 0x300),
            (14, ONES),
            (15, 0x400),
            (16, 0x8007),
            (17, 0),
            (20, 0),
            (28, ONES),
            (29, ONES),
            (30, ONES),
            (31, 0),
            (18, 0),
        ];
        for (register, value) in expected {
            assert_eq!(cp0.read(register), value, "register {register}");
        }
    }

    #[test]
    fn status_and_page_mask_moves_can_be_not_built() {
        for bit in 0..32u32 {
            let expected = matches!(bit, 3 | 5 | 6 | 7 | 25 | 29 | 30 | 31);
            assert_eq!(move_is_not_built(number::STATUS, 1 << bit), expected, "bit {bit}");
        }
        assert!(
            move_is_not_built(number::STATUS, 0x18) && !move_is_not_built(number::STATUS, 0x10)
        );
        assert!(!move_is_not_built(number::STATUS, 1 << 63));
        assert!(move_is_not_built(number::PAGE_MASK, 0x2000));
        assert!(!move_is_not_built(number::PAGE_MASK, 0x6000));
        assert!(!move_is_not_built(number::COUNT, ONES));
    }

    #[test]
    fn a_compare_write_clears_the_timer() {
        let mut cp0 = Cp0::fresh();
        cp0.cause = CAUSE_TIMER | 0x300;
        cp0.write(number::COMPARE, 9);
        assert_eq!((cp0.cause, cp0.compare), (0x300, 9));
    }

    #[test]
    fn cause_reads_the_lines() {
        let mut cp0 = Cp0::fresh();
        cp0.cause = CAUSE_BD;
        assert_eq!(cp0.read_with_lines(number::CAUSE, 31), 0xffff_ffff_8000_7c00);
        assert_eq!(cp0.read(number::CAUSE), 0xffff_ffff_8000_0000);
    }
}
