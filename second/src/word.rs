//! Word and doubleword arithmetic: sums, shifts, products and quotients.

/// Sign-extends a word to a doubleword.
pub fn extend(word: u32) -> u64 {
    word as i32 as i64 as u64
}

/// Sign-extends a 16-bit immediate to a doubleword.
pub fn extend_half(half: u16) -> u64 {
    half as i16 as i64 as u64
}

/// Adds two words, wrapping, and sign-extends the sum.
pub fn add_word(a: u64, b: u64) -> u64 {
    extend((a as u32).wrapping_add(b as u32))
}

/// Subtracts two words, wrapping, and sign-extends the difference.
pub fn sub_word(a: u64, b: u64) -> u64 {
    extend((a as u32).wrapping_sub(b as u32))
}

/// Adds two signed words, or gives nothing when the sum does not fit.
pub fn add_word_exact(a: u64, b: u64) -> Option<u64> {
    (a as i32).checked_add(b as i32).map(|sum| sum as i64 as u64)
}

/// Subtracts two signed words, or gives nothing when the difference does not fit.
pub fn sub_word_exact(a: u64, b: u64) -> Option<u64> {
    (a as i32).checked_sub(b as i32).map(|difference| difference as i64 as u64)
}

/// Adds two signed doublewords, or gives nothing when the sum does not fit.
pub fn add_double_exact(a: u64, b: u64) -> Option<u64> {
    (a as i64).checked_add(b as i64).map(|sum| sum as u64)
}

/// Subtracts two signed doublewords, or gives nothing when the difference does not fit.
pub fn sub_double_exact(a: u64, b: u64) -> Option<u64> {
    (a as i64).checked_sub(b as i64).map(|difference| difference as u64)
}

/// Shifts a word left by the low five bits of the count.
pub fn shift_left_word(value: u64, count: u32) -> u64 {
    extend((value as u32) << (count & 31))
}

/// Shifts a word right by the low five bits of the count, filling with zeros.
pub fn shift_right_word(value: u64, count: u32) -> u64 {
    extend((value as u32) >> (count & 31))
}

/// Shifts a word right by the low five bits of the count, filling with its sign.
pub fn shift_right_signed_word(value: u64, count: u32) -> u64 {
    ((value as i32) >> (count & 31)) as i64 as u64
}

/// Shifts a doubleword left by the low six bits of the count.
pub fn shift_left_double(value: u64, count: u32) -> u64 {
    value << (count & 63)
}

/// Shifts a doubleword right by the low six bits of the count, filling with zeros.
pub fn shift_right_double(value: u64, count: u32) -> u64 {
    value >> (count & 63)
}

/// Shifts a doubleword right by the low six bits of the count, filling with its sign.
pub fn shift_right_signed_double(value: u64, count: u32) -> u64 {
    ((value as i64) >> (count & 63)) as u64
}

/// A pair of results that go to HI and LO.
#[derive(Clone, Copy, Debug, PartialEq, Eq)]
pub struct HiLo {
    pub hi: u64,
    pub lo: u64,
}

/// Splits a 64-bit product of words into sign-extended halves.
fn split_product(product: u64) -> HiLo {
    HiLo { hi: extend((product >> 32) as u32), lo: extend(product as u32) }
}

/// Multiplies two signed words.
pub fn multiply_word(a: u64, b: u64) -> HiLo {
    split_product((a as i32 as i64).wrapping_mul(b as i32 as i64) as u64)
}

/// Multiplies two unsigned words.
pub fn multiply_unsigned_word(a: u64, b: u64) -> HiLo {
    split_product((a as u32 as u64) * (b as u32 as u64))
}

/// Multiplies two signed doublewords into 128 bits.
pub fn multiply_double(a: u64, b: u64) -> HiLo {
    let product = ((a as i64 as i128) * (b as i64 as i128)) as u128;
    HiLo { hi: (product >> 64) as u64, lo: product as u64 }
}

/// Multiplies two unsigned doublewords into 128 bits.
pub fn multiply_unsigned_double(a: u64, b: u64) -> HiLo {
    let product = (a as u128) * (b as u128);
    HiLo { hi: (product >> 64) as u64, lo: product as u64 }
}

/// Gives HI and LO of a zero divisor, from the dividend as it goes to HI and its being negative.
fn by_zero(dividend: u64, negative: bool) -> HiLo {
    HiLo { hi: dividend, lo: if negative { 1 } else { u64::MAX } }
}

/// Divides two signed words, quotient to LO and remainder to HI.
pub fn divide_word(a: u64, b: u64) -> HiLo {
    let (dividend, divisor) = (a as i32, b as i32);
    if divisor == 0 {
        return by_zero(dividend as i64 as u64, dividend < 0);
    }
    HiLo {
        hi: dividend.wrapping_rem(divisor) as i64 as u64,
        lo: dividend.wrapping_div(divisor) as i64 as u64,
    }
}

/// Divides two unsigned words, quotient to LO and remainder to HI, both sign-extended.
pub fn divide_unsigned_word(a: u64, b: u64) -> HiLo {
    let (dividend, divisor) = (a as u32, b as u32);
    if divisor == 0 {
        return by_zero(extend(dividend), false);
    }
    HiLo { hi: extend(dividend % divisor), lo: extend(dividend / divisor) }
}

/// Divides two signed doublewords, quotient to LO and remainder to HI.
pub fn divide_double(a: u64, b: u64) -> HiLo {
    let (dividend, divisor) = (a as i64, b as i64);
    if divisor == 0 {
        return by_zero(a, dividend < 0);
    }
    HiLo { hi: dividend.wrapping_rem(divisor) as u64, lo: dividend.wrapping_div(divisor) as u64 }
}

/// Divides two unsigned doublewords, quotient to LO and remainder to HI.
pub fn divide_unsigned_double(a: u64, b: u64) -> HiLo {
    if b == 0 {
        return by_zero(a, false);
    }
    HiLo { hi: a % b, lo: a / b }
}

#[cfg(test)]
mod tests {
    use super::*;

    const MINUS: u64 = u64::MAX;

    #[test]
    fn sums_wrap_and_use_low_words() {
        assert_eq!(add_word(0x7fff_ffff, 1), 0xffff_ffff_8000_0000);
        assert_eq!(add_word(0x1234_5678_ffff_ffff, 1), 0);
        assert_eq!(sub_word(0, 1), MINUS);
    }

    #[test]
    fn exact_sums_refuse_overflow() {
        assert_eq!(add_word_exact(0x7fff_ffff, 1), None);
        assert_eq!(add_word_exact(0x7fff_fffe, 1), Some(0x7fff_ffff));
        assert_eq!(sub_word_exact(0x8000_0000, 1), None);
        assert_eq!(sub_word_exact(0, 0x8000_0000), None);
        assert_eq!(add_double_exact(i64::MAX as u64, 1), None);
        assert_eq!(sub_double_exact(i64::MIN as u64, 1), None);
        assert_eq!(sub_double_exact(5, 7), Some(MINUS - 1));
    }

    #[test]
    fn shifts_take_five_or_six_bits() {
        assert_eq!(shift_right_signed_word(0x8000_0000, 31), MINUS);
        assert_eq!(shift_left_word(1, 33), 2);
        assert_eq!(shift_left_word(1, 31), 0xffff_ffff_8000_0000);
        assert_eq!(shift_right_word(0xffff_ffff_8000_0000, 0), 0xffff_ffff_8000_0000);
        assert_eq!(shift_right_word(0xffff_ffff_8000_0000, 31), 1);
        assert_eq!(shift_left_double(1, 63), 1 << 63);
        assert_eq!(shift_right_double(1 << 63, 64 + 63), 1);
        assert_eq!(shift_right_signed_double(1 << 63, 63), MINUS);
    }

    #[test]
    fn products_fill_both_halves() {
        assert_eq!(multiply_unsigned_double(MINUS, MINUS), HiLo { hi: MINUS - 1, lo: 1 });
        assert_eq!(multiply_double(MINUS, MINUS), HiLo { hi: 0, lo: 1 });
        assert_eq!(multiply_double(1 << 63, 1 << 63), HiLo { hi: 1 << 62, lo: 0 });
        assert_eq!(multiply_word(0x8000_0000, 0x8000_0000), HiLo { hi: 0x4000_0000, lo: 0 });
        assert_eq!(multiply_unsigned_word(MINUS, MINUS), HiLo { hi: MINUS - 1, lo: 1 });
        assert_eq!(multiply_word(MINUS, 2), HiLo { hi: MINUS, lo: MINUS - 1 });
    }

    #[test]
    fn quotients_cut_toward_zero() {
        assert_eq!(divide_word((-7i64) as u64, 2), HiLo { hi: MINUS, lo: (-3i64) as u64 });
        assert_eq!(divide_word(7, (-2i64) as u64), HiLo { hi: 1, lo: (-3i64) as u64 });
        let lowest = 0xffff_ffff_8000_0000;
        assert_eq!(divide_word(lowest, MINUS), HiLo { hi: 0, lo: lowest });
        assert_eq!(divide_double(1 << 63, MINUS), HiLo { hi: 0, lo: 1 << 63 });
        assert_eq!(divide_unsigned_word(MINUS, 1), HiLo { hi: 0, lo: MINUS });
        assert_eq!(divide_unsigned_double(MINUS, 16), HiLo { hi: 15, lo: MINUS >> 4 });
    }

    #[test]
    fn a_zero_divisor_leaves_the_dividend_of_words() {
        // The dividend, HI, and LO of the signed form; the last five have another high word.
        let cases = [
            (0, 0, MINUS),
            (1, 1, MINUS),
            (0x7fff_ffff, 0x7fff_ffff, MINUS),
            (MINUS, MINUS, 1),
            (MINUS - 6, MINUS - 6, 1),
            (0xffff_ffff_8000_0000, 0xffff_ffff_8000_0000, 1),
            (0x8000_0000, 0xffff_ffff_8000_0000, 1),
            (0x7fff_ffff_ffff_fff9, MINUS - 6, 1),
            (0xffff_ffff_0000_0007, 7, MINUS),
            (1 << 63, 0, MINUS),
            (1 << 32, 0, MINUS),
        ];
        for (dividend, hi, lo) in cases {
            for divisor in [0, 1 << 32, 1 << 63, 0xffff_ffff_0000_0000] {
                assert_eq!(divide_word(dividend, divisor), HiLo { hi, lo });
                assert_eq!(divide_unsigned_word(dividend, divisor), HiLo { hi, lo: MINUS });
            }
        }
    }

    #[test]
    fn a_zero_divisor_leaves_the_dividend_of_doublewords() {
        let lowest = 1 << 63;
        for dividend in [0, 1, 7, 0x8000_0000, 0xffff_ffff, lowest - 1] {
            let left = HiLo { hi: dividend, lo: MINUS };
            assert_eq!(divide_double(dividend, 0), left);
            assert_eq!(divide_unsigned_double(dividend, 0), left);
        }
        for dividend in [MINUS, MINUS - 6, 0xffff_ffff_0000_0000, lowest + 7, lowest] {
            assert_eq!(divide_double(dividend, 0), HiLo { hi: dividend, lo: 1 });
            assert_eq!(divide_unsigned_double(dividend, 0), HiLo { hi: dividend, lo: MINUS });
        }
    }

    #[test]
    fn a_zero_low_word_is_no_zero_divisor_of_doublewords() {
        assert_eq!(divide_double(MINUS - 6, 1 << 32), HiLo { hi: MINUS - 6, lo: 0 });
        assert_eq!(divide_double(1 << 63, MINUS << 32), HiLo { hi: 0, lo: 1 << 31 });
        assert_eq!(
            divide_unsigned_double(MINUS, 1 << 32),
            HiLo { hi: MINUS >> 32, lo: MINUS >> 32 }
        );
    }
}
