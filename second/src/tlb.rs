//! The TLB: its slots, how they match an address and where they send it.

/// The number of slots.
pub const SLOTS: usize = 48;

/// The page number bits of an EntryHi value.
pub const PAGE_BITS: u32 = 0xffff_e000;
/// The bits an EntryHi value keeps.
pub const ENTRY_HI_BITS: u32 = 0xffff_e0ff;
/// The bits an EntryLo value keeps.
pub const ENTRY_LO_BITS: u32 = 0x3fff_ffff;

const GLOBAL: u32 = 1;
const VALID: u32 = 2;
const DIRTY: u32 = 4;

/// One double entry as it is stored.
#[derive(Clone, Copy, Debug, PartialEq, Eq)]
pub struct Slot {
    /// The page mask, in place (bits 24..13).
    pub mask: u32,
    /// The page number, in place (bits 31..13), clear under the mask.
    pub page: u32,
    /// The address space the slot belongs to.
    pub asid: u32,
    /// Whether the slot belongs to every address space.
    pub global: bool,
    /// The even half: frame, C, D and V in place, bit 0 clear.
    pub even: u32,
    /// The odd half, likewise.
    pub odd: u32,
}

/// The four CP0 values that a slot is written from and read into.
#[derive(Clone, Copy, Debug, PartialEq, Eq)]
pub struct SlotValues {
    pub page_mask: u32,
    pub entry_hi: u32,
    pub entry_lo0: u32,
    pub entry_lo1: u32,
}

/// One half of a slot, chosen for an address.
#[derive(Clone, Copy, Debug, PartialEq, Eq)]
pub struct Half {
    pub valid: bool,
    pub dirty: bool,
    /// The 36-bit physical address.
    pub physical: u64,
}

/// What a search of the slots finds.
#[derive(Clone, Copy, Debug, PartialEq, Eq)]
pub enum Found {
    None,
    One(usize),
    Several,
}

/// Tells whether a PageMask value is one of the seven legal ones.
pub fn mask_is_legal(mask: u32) -> bool {
    matches!(mask, 0 | 0x6000 | 0x1_e000 | 0x7_e000 | 0x1f_e000 | 0x7f_e000 | 0x1ff_e000)
}

impl Slot {
    /// Gives the slot that a TLB write of the four values stores.
    pub fn written(values: SlotValues) -> Slot {
        Slot {
            mask: values.page_mask,
            page: values.entry_hi & PAGE_BITS & !values.page_mask,
            asid: values.entry_hi & 0xff,
            global: values.entry_lo0 & values.entry_lo1 & GLOBAL != 0,
            even: values.entry_lo0 & ENTRY_LO_BITS & !GLOBAL,
            odd: values.entry_lo1 & ENTRY_LO_BITS & !GLOBAL,
        }
    }

    /// Gives the four values that a TLB read of the slot hands out.
    pub fn values(&self) -> SlotValues {
        let global = self.global as u32;
        SlotValues {
            page_mask: self.mask,
            entry_hi: self.page | self.asid,
            entry_lo0: self.even | global,
            entry_lo1: self.odd | global,
        }
    }

    /// Tells whether the slot matches an address in an address space.
    #[inline]
    pub fn matches(&self, address: u32, asid: u32) -> bool {
        (address ^ self.page) & PAGE_BITS & !self.mask == 0 && (self.global || self.asid == asid)
    }

    /// Picks the half for a matching address and forms the physical address.
    pub fn half(&self, address: u32) -> Half {
        // Mask and the 8 KiB below it cover the pair; half of the pair is one page.
        let page_size = (self.mask | 0x1fff).wrapping_add(1) >> 1;
        let entry = if address & page_size == 0 { self.even } else { self.odd };
        let offset_bits = (page_size - 1) as u64;
        let frame = ((entry >> 6) as u64) << 12;
        Half {
            valid: entry & VALID != 0,
            dirty: entry & DIRTY != 0,
            physical: (frame & !offset_bits) | (address as u64 & offset_bits),
        }
    }

    /// Tells whether every field of the slot is inside its range.
    pub fn in_range(&self) -> bool {
        let half_bits = ENTRY_LO_BITS & !GLOBAL;
        mask_is_legal(self.mask)
            && self.page & !(PAGE_BITS & !self.mask) == 0
            && self.asid <= 0xff
            && self.even & !half_bits == 0
            && self.odd & !half_bits == 0
    }
}

/// Gives the slot that a fresh machine holds at a place.
pub fn fresh_slot(place: usize) -> Slot {
    Slot {
        mask: 0,
        page: 0x8000_0000 + place as u32 * 0x2000,
        asid: 0,
        global: false,
        even: 0,
        odd: 0,
    }
}

/// Searches all slots for an address in an address space.
pub fn search(slots: &[Slot; SLOTS], address: u32, asid: u32) -> Found {
    let mut found = Found::None;
    for (place, slot) in slots.iter().enumerate() {
        if slot.matches(address, asid) {
            if found != Found::None {
                return Found::Several;
            }
            found = Found::One(place);
        }
    }
    found
}

#[cfg(test)]
mod tests {
    use super::*;

    /// Builds a slot from the four values in their usual order.
    fn slot(page_mask: u32, entry_hi: u32, entry_lo0: u32, entry_lo1: u32) -> Slot {
        Slot::written(SlotValues { page_mask, entry_hi, entry_lo0, entry_lo1 })
    }

    #[test]
    fn seven_masks_are_legal() {
        let legal: Vec<u32> =
            (0..1u32 << 13).map(|n| n << 13).filter(|m| mask_is_legal(*m)).collect();
        assert_eq!(legal.len(), 7);
        for mask in legal {
            let ones = mask.count_ones();
            assert_eq!(ones % 2, 0);
            assert_eq!((mask >> 13).trailing_ones(), ones);
        }
        assert!(mask_is_legal(0x6000) && !mask_is_legal(0x2000) && !mask_is_legal(1));
    }

    #[test]
    fn bench_card_ten() {
        let slot = slot(0, 0x0040_0001, 0x86, 0);
        assert!(slot.matches(0x0040_0123, 1) && !slot.matches(0x0040_0123, 2));
        let half = slot.half(0x0040_0123);
        assert!(half.valid && half.dirty);
        assert_eq!(half.physical, 0x2123);
        assert!(slot.matches(0x0040_1000, 1) && !slot.half(0x0040_1000).valid);
    }

    #[test]
    fn every_page_size_splits_at_its_own_bit() {
        for k in 0..7u32 {
            let mask = ((1u32 << (2 * k)) - 1) << 13;
            let size = 0x1000u32 << (2 * k);
            let slot = slot(mask, 0x5fff_e000, 0x3fff_ffc2, 0x02);
            let base = 0x5fff_e000 & !mask & !0x1fff;
            assert_eq!(slot.page, base);
            assert!(slot.matches(base, 0) && slot.matches(base + 2 * size - 1, 0));
            assert!(!slot.matches(base.wrapping_add(2 * size), 0));
            assert!(!slot.matches(base.wrapping_sub(1), 0));
            let top_frame = (0xf_ffff_f000u64 / size as u64) * size as u64;
            assert_eq!(slot.half(base + size - 1).physical, top_frame + size as u64 - 1);
            assert_eq!(slot.half(base + size + 5).physical, 5);
        }
    }

    #[test]
    fn a_write_joins_the_global_bits_and_a_read_repeats_them() {
        assert!(!slot(0, 0, 1, 0).global && !slot(0, 0, 0, 1).global);
        let both = slot(0x6000, 0xffff_ffff, 0xffff_ffff, 1);
        assert!(both.global && both.in_range());
        let values = both.values();
        assert_eq!(values.entry_hi, 0xffff_80ff);
        assert_eq!(values.entry_lo0, 0x3fff_ffff);
        assert_eq!(values.entry_lo1, 1);
    }

    #[test]
    fn a_search_counts_matches() {
        let mut slots = [slot(0, 0, 0, 0); SLOTS];
        for (place, entry) in slots.iter_mut().enumerate() {
            *entry = fresh_slot(place);
        }
        assert_eq!(search(&slots, 0x8000_2000, 0), Found::One(1));
        assert_eq!(search(&slots, 0x8000_2000, 1), Found::None);
        slots[47] = slot(0, 0x8000_2005, 1, 1);
        assert_eq!(search(&slots, 0x8000_2000, 0), Found::Several);
        assert_eq!(search(&slots, 0x8000_2000, 1), Found::One(47));
    }

    #[test]
    fn ranges_are_checked_field_by_field() {
        let good = fresh_slot(0);
        assert!(good.in_range());
        assert!(!Slot { mask: 0x2000, ..good }.in_range());
        assert!(!Slot { mask: 0x6000, page: 0x2000, ..good }.in_range());
        assert!(!Slot { page: 0x1000, ..good }.in_range());
        assert!(!Slot { asid: 0x100, ..good }.in_range());
        assert!(!Slot { even: 1, ..good }.in_range());
        assert!(!Slot { odd: 0x4000_0000, ..good }.in_range());
    }
}
