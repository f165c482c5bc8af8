//! What the registers of CP0 say about the machine, and how steps change them.

use super::*;
use crate::tlb::{SlotValues, PAGE_BITS};

impl Cp0 {
    /// Tells whether the machine runs in Kernel mode.
    #[inline]
    pub fn is_kernel(&self) -> bool {
        self.status & (STATUS_EXL | STATUS_ERL) != 0 || self.status & STATUS_USER == 0
    }

    /// Tells whether CP0 instructions are usable.
    #[inline]
    pub fn is_usable(&self) -> bool {
        self.is_kernel() || self.status & STATUS_CU0 != 0
    }

    /// Tells whether an interrupt is to be taken under the given lines.
    #[inline]
    pub fn interrupt_is_due(&self, lines: u32) -> bool {
        self.status & (STATUS_IE | STATUS_EXL | STATUS_ERL) == STATUS_IE
            && (self.cause | lines << 10) & self.status & INTERRUPTS != 0
    }

    /// Gives the current address space.
    #[inline]
    pub fn asid(&self) -> u32 {
        self.entry_hi & 0xff
    }

    /// Gives the four values that a TLB write takes.
    pub fn slot_values(&self) -> SlotValues {
        SlotValues {
            page_mask: self.page_mask,
            entry_hi: self.entry_hi,
            entry_lo0: self.entry_lo0,
            entry_lo1: self.entry_lo1,
        }
    }

    /// Takes over the four values that a TLB read gives.
    pub fn set_slot_values(&mut self, values: SlotValues) {
        self.page_mask = values.page_mask;
        self.entry_hi = values.entry_hi;
        self.entry_lo0 = values.entry_lo0;
        self.entry_lo1 = values.entry_lo1;
    }

    /// Records the page of an address that the TLB could not serve.
    pub fn note_bad_page(&mut self, address: u64) {
        let page = address as u32 & PAGE_BITS;
        self.entry_hi = page | self.asid();
        self.context = self.context & CONTEXT_BASE_BITS | ((page >> 13) as u64) << 4;
    }

    /// Writes the code and the unit of an exception into Cause.
    pub fn note_cause(&mut self, code: u32, unit: u32) {
        self.cause = self.cause & !(CAUSE_CODE | CAUSE_UNIT) | code << 2 | unit << 28;
    }

    /// Ends a counted step: Count and the timer, then Random unless Wired was written.
    #[inline]
    pub fn tick(&mut self, wired_was_written: bool) {
        self.count = self.count.wrapping_add(1);
        if self.count == self.compare {
            self.cause |= CAUSE_TIMER;
        }
        if !wired_was_written {
            self.random = if self.random == self.wired || self.random == 0 {
                RANDOM_TOP
            } else {
                self.random - 1
            };
        }
    }
}

#[cfg(test)]
mod tests {
    use super::*;

    const ONES: u64 = u64::MAX;

    #[test]
    fn modes_follow_status() {
        let mut cp0 = Cp0::fresh();
        for (status, kernel, usable) in [
            (0, true, true),
            (0x10, false, false),
            (0x12, true, true),
            (0x14, true, true),
            (0x1000_0010, false, true),
        ] {
            cp0.status = status;
            assert_eq!((cp0.is_kernel(), cp0.is_usable()), (kernel, usable));
        }
    }

    #[test]
    fn interrupts_need_every_condition() {
        let mut cp0 = Cp0::fresh();
        cp0.status = 0x0401;
        assert!(!cp0.interrupt_is_due(0) && cp0.interrupt_is_due(1));
        assert!(!cp0.interrupt_is_due(0x1e));
        cp0.status = 0x0403;
        assert!(!cp0.interrupt_is_due(1));
        cp0.status = 0x0405;
        assert!(!cp0.interrupt_is_due(1));
        cp0.status = 0x0101;
        cp0.cause = 0x100;
        assert!(cp0.interrupt_is_due(0));
        cp0.status = 0x8001;
        cp0.cause = 0x8000;
        assert!(cp0.interrupt_is_due(0));
    }

    #[test]
    fn ticks_move_count_and_random() {
        let mut cp0 = Cp0::fresh();
        cp0.compare = 0;
        cp0.count = u32::MAX;
        cp0.random = 5;
        cp0.wired = 4;
        cp0.tick(false);
        assert_eq!((cp0.count, cp0.cause, cp0.random), (0, CAUSE_TIMER, 4));
        cp0.tick(false);
        assert_eq!((cp0.count, cp0.random), (1, 47));
        cp0.tick(true);
        assert_eq!((cp0.count, cp0.random), (2, 47));
        cp0.wired = 60;
        cp0.random = 1;
        cp0.tick(false);
        assert_eq!(cp0.random, 0);
        cp0.tick(false);
        assert_eq!(cp0.random, 47);
    }

    #[test]
    fn bad_pages_fill_context_and_entry_hi() {
        let mut cp0 = Cp0::fresh();
        cp0.entry_hi = 0xffff_e012;
        cp0.note_bad_page(0x0040_0123);
        assert_eq!((cp0.context, cp0.entry_hi), (0x2000, 0x0040_0012));
        cp0.write(number::CONTEXT, ONES);
        assert_eq!(cp0.context, 0xffff_ffff_ff80_2000);
        cp0.note_bad_page(0xffff_ffff_ffff_f000);
        assert_eq!(cp0.context, 0xffff_ffff_ffff_fff0);
    }
}
