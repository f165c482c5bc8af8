//! The registers of CP0.

mod moves;
mod state;

use crate::tlb::{mask_is_legal, ENTRY_HI_BITS, ENTRY_LO_BITS};

pub use moves::{is_kept, move_is_not_built};

/// The numbers of the kept registers.
pub mod number {
    pub const INDEX: u32 = 0;
    pub const RANDOM: u32 = 1;
    pub const ENTRY_LO0: u32 = 2;
    pub const ENTRY_LO1: u32 = 3;
    pub const CONTEXT: u32 = 4;
    pub const PAGE_MASK: u32 = 5;
    pub const WIRED: u32 = 6;
    pub const BAD_VADDR: u32 = 8;
    pub const COUNT: u32 = 9;
    pub const ENTRY_HI: u32 = 10;
    pub const COMPARE: u32 = 11;
    pub const STATUS: u32 = 12;
    pub const CAUSE: u32 = 13;
    pub const EPC: u32 = 14;
    pub const PRID: u32 = 15;
    pub const CONFIG: u32 = 16;
    pub const LL_ADDR: u32 = 17;
    pub const TAG_LO: u32 = 28;
    pub const TAG_HI: u32 = 29;
    pub const ERROR_EPC: u32 = 30;
}

pub const STATUS_IE: u32 = 1;
pub const STATUS_EXL: u32 = 1 << 1;
pub const STATUS_ERL: u32 = 1 << 2;
pub const STATUS_USER: u32 = 1 << 4;
pub const STATUS_BEV: u32 = 1 << 22;
pub const STATUS_CU0: u32 = 1 << 28;
/// The interrupt masks in Status and the interrupt bits in Cause.
pub const INTERRUPTS: u32 = 0xff00;
/// CU0, BEV, IM, KSU, ERL, EXL and IE.
const STATUS_BITS: u32 = 0x1040_ff1f;
/// CU3 to CU1, RE, KX, SX, UX, and the low bit of KSU, which is set for KSU 1 and 3.
const STATUS_NOT_BUILT: u32 = 0xe200_00e8;

pub const CAUSE_TIMER: u32 = 1 << 15;
pub const CAUSE_BD: u32 = 1 << 31;
const CAUSE_SOFTWARE: u32 = 0x300;
const CAUSE_CODE: u32 = 0x7c;
const CAUSE_UNIT: u32 = 0x3000_0000;
const CAUSE_BITS: u32 = CAUSE_BD | CAUSE_UNIT | CAUSE_TIMER | CAUSE_SOFTWARE | CAUSE_CODE;

const INDEX_BITS: u32 = 0x8000_003f;
const WIRED_BITS: u32 = 0x3f;
const CONFIG_BASE: u32 = 0x8000;
const CONFIG_BITS: u32 = 7;
const PRID: u32 = 0x0400;
/// The bits of Context that a move writes; below them stands the bad page number.
const CONTEXT_BASE_BITS: u64 = !0x7f_ffff;
const CONTEXT_PAGE_BITS: u64 = 0x7f_fff0;
/// The highest value of Random.
pub const RANDOM_TOP: u32 = 47;

/// The kept registers of CP0.
#[derive(Clone, Debug, PartialEq, Eq)]
pub struct Cp0 {
    pub index: u32,
    pub random: u32,
    pub entry_lo0: u32,
    pub entry_lo1: u32,
    pub context: u64,
    pub page_mask: u32,
    pub wired: u32,
    pub bad_vaddr: u64,
    pub count: u32,
    pub entry_hi: u32,
    pub compare: u32,
    pub status: u32,
    /// Cause without IP6..2, which are the lines.
    pub cause: u32,
    pub epc: u64,
    pub prid: u32,
    pub config: u32,
    pub ll_addr: u32,
    pub tag_lo: u32,
    pub tag_hi: u32,
    pub error_epc: u64,
}

impl Cp0 {
    /// Gives the registers as they are after reset.
    pub fn fresh() -> Cp0 {
        Cp0 {
            index: 0,
            random: RANDOM_TOP,
            entry_lo0: 0,
            entry_lo1: 0,
            context: 0,
            page_mask: 0,
            wired: 0,
            bad_vaddr: 0,
            count: 0,
            entry_hi: 0,
            compare: 0,
            status: STATUS_BEV | STATUS_ERL,
            cause: 0,
            epc: 0,
            prid: PRID,
            config: CONFIG_BASE,
            ll_addr: 0,
            tag_lo: 0,
            tag_hi: 0,
            error_epc: 0,
        }
    }

    /// Tells whether every register is inside its range.
    pub fn in_range(&self) -> bool {
        self.index & !INDEX_BITS == 0
            && self.random <= RANDOM_TOP
            && (self.wired > RANDOM_TOP || self.random >= self.wired)
            && self.entry_lo0 & !ENTRY_LO_BITS == 0
            && self.entry_lo1 & !ENTRY_LO_BITS == 0
            && self.context & !(CONTEXT_BASE_BITS | CONTEXT_PAGE_BITS) == 0
            && mask_is_legal(self.page_mask)
            && self.wired & !WIRED_BITS == 0
            && self.entry_hi & !ENTRY_HI_BITS == 0
            && self.status & !STATUS_BITS == 0
            && self.status & STATUS_NOT_BUILT == 0
            && self.cause & !CAUSE_BITS == 0
            && self.prid == PRID
            && self.config & !CONFIG_BITS == CONFIG_BASE
    }
}

#[cfg(test)]
mod tests {
    use super::*;

    #[test]
    fn ranges_are_checked_register_by_register() {
        let fresh = Cp0::fresh();
        let bad = [
            Cp0 { index: 0x40, ..fresh.clone() },
            Cp0 { random: 3, wired: 4, ..fresh.clone() },
            Cp0 { random: 48, wired: 63, ..fresh.clone() },
            Cp0 { entry_lo0: 1 << 30, ..fresh.clone() },
            Cp0 { entry_lo1: 1 << 31, ..fresh.clone() },
            Cp0 { context: 8, ..fresh.clone() },
            Cp0 { page_mask: 0x2000, ..fresh.clone() },
            Cp0 { wired: 64, ..fresh.clone() },
            Cp0 { entry_hi: 0x100, ..fresh.clone() },
            Cp0 { status: 1 << 27, ..fresh.clone() },
            Cp0 { status: 0x8, ..fresh.clone() },
            Cp0 { cause: 0x400, ..fresh.clone() },
            Cp0 { prid: 0x401, ..fresh.clone() },
            Cp0 { config: 0x8008, ..fresh.clone() },
            Cp0 { config: 0, ..fresh.clone() },
        ];
        for (place, cp0) in bad.iter().enumerate() {
            assert!(!cp0.in_range(), "case {place}");
        }
        assert!(Cp0 { random: 0, wired: 48, ..fresh }.in_range());
    }
}
