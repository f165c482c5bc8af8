//! What loads cut out of a doubleword and stores put into it.

use crate::instruction::{Load, Store};
use crate::word::{extend, extend_half};

/// Gives a mask of some number of low bytes, one to eight.
fn ones(bytes: u32) -> u64 {
    u64::MAX >> (64 - 8 * bytes)
}

/// Cuts some bytes out of a doubleword, counted from its most significant end.
fn cut(eight: u64, offset: u32, bytes: u32) -> u64 {
    eight >> (8 * (8 - offset - bytes)) & ones(bytes)
}

/// Bytes to be stored, in place inside their doubleword.
#[derive(Clone, Copy, Debug, PartialEq, Eq)]
pub struct Patch {
    pub bits: u64,
    pub mask: u64,
}

/// Puts some low bytes of a value at an offset of a doubleword.
fn patch(value: u64, offset: u32, bytes: u32) -> Patch {
    let shift = 8 * (8 - offset - bytes);
    Patch { bits: (value & ones(bytes)) << shift, mask: ones(bytes) << shift }
}

/// Gives the value a load leaves in its register, whose old value is given.
pub fn loaded(load: Load, eight: u64, offset: u32, old: u64) -> u64 {
    match load {
        Load::Byte => cut(eight, offset, 1) as u8 as i8 as i64 as u64,
        Load::ByteUnsigned => cut(eight, offset, 1),
        Load::Half => extend_half(cut(eight, offset, 2) as u16),
        Load::HalfUnsigned => cut(eight, offset, 2),
        Load::Word | Load::Linked => extend(cut(eight, offset, 4) as u32),
        Load::WordUnsigned => cut(eight, offset, 4),
        Load::Double | Load::LinkedDouble => eight,
        Load::WordLeft => {
            let word = cut(eight, offset & 4, 4) as u32;
            let shift = 8 * (offset & 3);
            let kept = (1u32 << shift) - 1;
            extend(word << shift | old as u32 & kept)
        }
        Load::WordRight => {
            let bytes = (offset & 3) + 1;
            let part = cut(eight, offset & 4, bytes);
            if bytes == 4 {
                extend(part as u32)
            } else {
                old & !ones(bytes) | part
            }
        }
        Load::DoubleLeft => {
            let shift = 8 * offset;
            let kept = (1u64 << shift) - 1;
            eight << shift | old & kept
        }
        Load::DoubleRight => {
            let bytes = offset + 1;
            let part = cut(eight, 0, bytes);
            if bytes == 8 {
                part
            } else {
                old & !ones(bytes) | part
            }
        }
    }
}

/// Gives the bytes a store of a value puts at an offset of a doubleword.
pub fn stored(store: Store, value: u64, offset: u32) -> Patch {
    match store {
        Store::Byte => patch(value, offset, 1),
        Store::Half => patch(value, offset, 2),
        Store::Word | Store::Conditional => patch(value, offset, 4),
        Store::Double | Store::ConditionalDouble => patch(value, 0, 8),
        Store::WordLeft => {
            let past = offset & 3;
            patch((value & 0xffff_ffff) >> (8 * past), offset, 4 - past)
        }
        Store::WordRight => patch(value, offset & 4, (offset & 3) + 1),
        Store::DoubleLeft => patch(value >> (8 * offset), offset, 8 - offset),
        Store::DoubleRight => patch(value, 0, offset + 1),
    }
}

#[cfg(test)]
mod tests {
    use super::*;

    const EIGHT: u64 = 0x1122_3344_5566_7788;
    const OLD: u64 = 0xa1a2_a3a4_a5a6_a7a8;

    #[test]
    fn plain_loads_extend() {
        let eight = 0x80ff_7f00_8000_0001;
        assert_eq!(loaded(Load::Byte, eight, 0, OLD), 0xffff_ffff_ffff_ff80);
        assert_eq!(loaded(Load::ByteUnsigned, eight, 0, OLD), 0x80);
        assert_eq!(loaded(Load::Half, eight, 0, OLD), 0xffff_ffff_ffff_80ff);
        assert_eq!(loaded(Load::HalfUnsigned, eight, 2, OLD), 0x7f00);
        assert_eq!(loaded(Load::Word, eight, 4, OLD), 0xffff_ffff_8000_0001);
        assert_eq!(loaded(Load::WordUnsigned, eight, 4, OLD), 0x8000_0001);
        assert_eq!(loaded(Load::Double, eight, 0, OLD), eight);
    }

    #[test]
    fn left_and_right_word_loads() {
        let left: Vec<u64> = (0..8).map(|o| loaded(Load::WordLeft, EIGHT, o, OLD)).collect();
        assert_eq!(
            left,
            [
                0x1122_3344,
                0x2233_44a8,
                0x3344_a7a8,
                0x44a6_a7a8,
                0x5566_7788,
                0x6677_88a8,
                0x7788_a7a8,
                0xffff_ffff_88a6_a7a8
            ]
        );
        let right: Vec<u64> = (0..8).map(|o| loaded(Load::WordRight, EIGHT, o, OLD)).collect();
        assert_eq!(
            right,
            [
                0xa1a2_a3a4_a5a6_a711,
                0xa1a2_a3a4_a5a6_1122,
                0xa1a2_a3a4_a511_2233,
                0x1122_3344,
                0xa1a2_a3a4_a5a6_a755,
                0xa1a2_a3a4_a5a6_5566,
                0xa1a2_a3a4_a555_6677,
                0x5566_7788
            ]
        );
    }

    #[test]
    fn left_and_right_doubleword_loads() {
        let left: Vec<u64> = (0..8).map(|o| loaded(Load::DoubleLeft, EIGHT, o, OLD)).collect();
        assert_eq!(
            left,
            [
                0x1122_3344_5566_7788,
                0x2233_4455_6677_88a8,
                0x3344_5566_7788_a7a8,
                0x4455_6677_88a6_a7a8,
                0x5566_7788_a5a6_a7a8,
                0x6677_88a4_a5a6_a7a8,
                0x7788_a3a4_a5a6_a7a8,
                0x88a2_a3a4_a5a6_a7a8
            ]
        );
        let right: Vec<u64> = (0..8).map(|o| loaded(Load::DoubleRight, EIGHT, o, OLD)).collect();
        assert_eq!(
            right,
            [
                0xa1a2_a3a4_a5a6_a711,
                0xa1a2_a3a4_a5a6_1122,
                0xa1a2_a3a4_a511_2233,
                0xa1a2_a3a4_1122_3344,
                0xa1a2_a311_2233_4455,
                0xa1a2_1122_3344_5566,
                0xa111_2233_4455_6677,
                0x1122_3344_5566_7788
            ]
        );
    }

    /// Stores a value over a doubleword.
    fn over(store: Store, value: u64, offset: u32, eight: u64) -> u64 {
        let patch = stored(store, value, offset);
        eight & !patch.mask | patch.bits
    }

    #[test]
    fn plain_stores_touch_their_bytes() {
        assert_eq!(over(Store::Byte, OLD, 3, EIGHT), 0x1122_33a8_5566_7788);
        assert_eq!(over(Store::Half, OLD, 6, EIGHT), 0x1122_3344_5566_a7a8);
        assert_eq!(over(Store::Word, OLD, 0, EIGHT), 0xa5a6_a7a8_5566_7788);
        assert_eq!(over(Store::Double, OLD, 0, EIGHT), OLD);
    }

    #[test]
    fn left_and_right_stores() {
        let left: Vec<u64> = (0..8).map(|o| over(Store::WordLeft, OLD, o, EIGHT)).collect();
        assert_eq!(
            left,
            [
                0xa5a6_a7a8_5566_7788,
                0x11a5_a6a7_5566_7788,
                0x1122_a5a6_5566_7788,
                0x1122_33a5_5566_7788,
                0x1122_3344_a5a6_a7a8,
                0x1122_3344_55a5_a6a7,
                0x1122_3344_5566_a5a6,
                0x1122_3344_5566_77a5
            ]
        );
        let right: Vec<u64> = (0..8).map(|o| over(Store::WordRight, OLD, o, EIGHT)).collect();
        assert_eq!(
            right,
            [
                0xa822_3344_5566_7788,
                0xa7a8_3344_5566_7788,
                0xa6a7_a844_5566_7788,
                0xa5a6_a7a8_5566_7788,
                0x1122_3344_a866_7788,
                0x1122_3344_a7a8_7788,
                0x1122_3344_a6a7_a888,
                0x1122_3344_a5a6_a7a8
            ]
        );
        assert_eq!(over(Store::DoubleLeft, OLD, 2, EIGHT), 0x1122_a1a2_a3a4_a5a6);
        assert_eq!(over(Store::DoubleLeft, OLD, 0, EIGHT), OLD);
        assert_eq!(over(Store::DoubleLeft, OLD, 7, EIGHT), 0x1122_3344_5566_77a1);
        assert_eq!(over(Store::DoubleRight, OLD, 0, EIGHT), 0xa822_3344_5566_7788);
        assert_eq!(over(Store::DoubleRight, OLD, 5, EIGHT), 0xa3a4_a5a6_a7a8_7788);
        assert_eq!(over(Store::DoubleRight, OLD, 7, EIGHT), OLD);
    }
}
