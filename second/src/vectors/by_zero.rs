//! Divisions by zero; HI and LO of each are copied, to r9 and r17, r10 and r18, and so on.

use super::arithmetic::MULDIV;
use super::common::*;
use crate::assemble::*;
use crate::draft::Draft;
use crate::many::Image;

/// The numbers of HI and LO in a frame.
const HI: u32 = 0x20;
const LO: u32 = 0x21;
/// A bit that the functions of quotients have, and one that those of doublewords have.
const QUOTIENT: u32 = 2;
const DOUBLE: u32 = 4;

/// Minus seven and minus one.
const MINUS_7: u64 = 0xffff_ffff_ffff_fff9;
const MINUS: u64 = u64::MAX;

/// Dividends by name of their image.
const DIVIDENDS: [(&str, &[u64]); 3] = [
    ("small-dividends", &[0, 1, 7, MINUS_7, MINUS]),
    ("least-and-greatest", &[0x7fff_ffff, 0xffff_ffff_8000_0000, 0x7fff_ffff_ffff_ffff, 1 << 63]),
    (
        "words-of-two-signs",
        &[
            0x8000_0000,
            0xffff_ffff,
            0x7fff_ffff_ffff_fff9,
            0xffff_ffff_0000_0007,
            0x8000_0000_7fff_ffff,
            0xffff_ffff_0000_0000,
            0x1_0000_0000,
        ],
    ),
];

/// Registers of a dividend and a divisor by name of their image.
const PAIRS: [(&str, &[(u32, u32)]); 3] = [
    ("divisor-with-a-high-word", &[(1, 3), (2, 3), (5, 3), (1, 4), (2, 4), (5, 4), (1, 5), (2, 5)]),
    ("with-r0", &[(1, 0), (2, 0), (0, 8), (0, 0)]),
    ("a-register-by-itself", &[(8, 8), (3, 3), (4, 4), (5, 5), (2, 2)]),
];

/// Encodes a division.
fn divide(function: u32, rs: u32, rt: u32) -> u32 {
    special(function, rs, rt, 0, 0)
}

/// Encodes MFHI.
fn mfhi(rd: u32) -> u32 {
    special(0x10, 0, 0, rd, 0)
}

/// Encodes MFLO.
fn mflo(rd: u32) -> u32 {
    special(0x12, 0, 0, rd, 0)
}

/// Encodes BEQL with a distance in words from the slot.
fn beql(rs: u32, rt: u32, distance: u32) -> u32 {
    immediate(0x14, rs, rt, distance)
}

/// Gives a division for each pair of registers, as groups of one word.
fn divisions(function: u32, pairs: &[(u32, u32)]) -> Vec<Vec<u32>> {
    pairs.iter().map(|(rs, rt)| vec![divide(function, *rs, *rt)]).collect()
}

/// Gives groups of words, each followed by copies of HI and LO.
fn shown(groups: &[Vec<u32>]) -> Vec<u32> {
    (1..)
        .zip(groups)
        .flat_map(|(place, words)| [&words[..], &[mfhi(8 + place), mflo(16 + place)]].concat())
        .collect()
}

/// Fills HI, LO and the registers of so many results with other values.
fn marked(mut draft: Draft, results: usize) -> Draft {
    for place in 1..=results as u32 {
        draft = draft.reg(8 + place, PATTERN).reg(16 + place, PATTERN);
    }
    draft.reg(HI, OTHER).reg(LO, PATTERN)
}

/// Sets two dividends, three numbers with a zero low word, and a zero.
fn with_operands(draft: Draft) -> Draft {
    draft
        .reg(1, 7)
        .reg(2, MINUS_7)
        .reg(3, 0x1_0000_0000)
        .reg(4, 0xffff_ffff_0000_0000)
        .reg(5, 1 << 63)
        .reg(8, 0)
}

/// Drafts groups of words that start with the operands.
fn program(name: impl Into<String>, groups: &[Vec<u32>]) -> Draft {
    with_operands(marked(Draft::kernel(name), groups.len())).code(&shown(groups))
}

/// Drafts dividends from r1 on, each divided by zero.
fn dividends(name: String, function: u32, values: &[u64]) -> Image {
    let mut draft = marked(Draft::kernel(name), values.len()).reg(8, 0);
    let mut pairs = Vec::new();
    for (register, value) in (1..).zip(values) {
        draft = draft.reg(register, *value);
        pairs.push((register, 8));
    }
    draft.code(&shown(&divisions(function, &pairs))).image()
}

/// Drafts divisions with other values in HI and LO: zeros, ones, a product.
fn over_hi_and_lo(name: String, function: u32) -> Image {
    let over = |register, dividend| {
        vec![
            special(0x11, register, 0, 0, 0),
            special(0x13, register, 0, 0, 0),
            divide(function, dividend, 8),
        ]
    };
    let product = vec![special(0x1d, 2, 2, 0, 0), divide(function, 2, 8)];
    program(name, &[over(0, 2), over(6, 1), over(6, 0), product]).reg(6, MINUS).image()
}

/// Drafts divisions in slots; the third is skipped, and r6 marks the ways past a branch.
fn in_slots(name: String, function: u32) -> Image {
    let bnel = immediate(0x15, 0, 0, 2);
    let group = |branch, rs, bit| vec![branch, divide(function, rs, 8), ori(6, 6, bit)];
    let groups = [
        group(beq(0, 0, 2), 2, 1),
        group(bne(0, 0, 2), 1, 2),
        group(bnel, 2, 4),
        group(beql(0, 0, 2), 2, 8),
    ];
    program(name, &groups).budget(4 + 5 + 4 + 4).image()
}

/// Drafts a User program, in which the doubleword forms are reserved whatever the divisor.
fn in_user_mode(name: String, function: u32) -> Image {
    let pairs = [(1, 8), (2, 8), (0, 8), (2, 3), (2, 1)];
    let code = shown(&divisions(function, &pairs));
    let raised = if function & DOUBLE == 0 { 0 } else { pairs.len() as u32 };
    let steps = code.len() as u32 + raised * (SKIP_STEPS - 1);
    with_operands(marked(user(name, &code), pairs.len())).budget(steps).image()
}

/// Gives a mill's program: it divides by zero and counts in r20 the answers that it hopes for.
fn probe(questions: &[(u32, u64, u64)]) -> Vec<u32> {
    let question = |(function, dividend, lo): &(u32, u64, u64)| {
        [
            addiu(1, 0, *dividend as u32),
            divide(*function, 1, 0),
            mflo(2),
            mfhi(3),
            addiu(4, 0, *lo as u32),
            bne(2, 4, 3),
            NOP,
            beql(3, 1, 1),
            addiu(20, 20, 1),
        ]
    };
    questions.iter().flat_map(question).collect()
}

/// Gives a form, dividends, and the LO that a mill hopes for.
fn questions(function: u32) -> [(u32, u64, u64); 3] {
    let signed = function & 1 == 0;
    let negative = if signed { 1 } else { MINUS };
    [(function, 7, MINUS), (function, MINUS_7, negative), (function, 0, MINUS)]
}

/// Gives all images of this subject.
pub fn images() -> Vec<Image> {
    let forms: Vec<(&str, u32)> =
        MULDIV.into_iter().filter(|(_, function)| function & QUOTIENT != 0).collect();
    let mut images = Vec::new();
    for (form, function) in forms.iter().copied() {
        let name = |kind: &str| format!("by-zero-{form}-{kind}");
        for (kind, values) in DIVIDENDS {
            images.push(dividends(name(kind), function, values));
        }
        for (kind, pairs) in PAIRS {
            images.push(program(name(kind), &divisions(function, pairs)).image());
        }
        images.push(over_hi_and_lo(name("over-hi-and-lo"), function));
        images.push(in_slots(name("in-slots"), function));
        images.push(in_user_mode(name("in-user-mode"), function));
        if function & DOUBLE != 0 {
            let code = [beq(0, 0, 2), divide(function, 2, 0)];
            let draft = user(name("in-user-mode-slot"), &code);
            images.push(with_operands(marked(draft, 0)).image());
        }
        images.push(Draft::kernel(name("probe")).code(&probe(&questions(function))).image());
    }
    let word_forms = [questions(forms[0].1), questions(forms[1].1)].concat();
    images.push(user("by-zero-probe-in-user-mode", &probe(&word_forms)).image());
    let loose: Vec<_> = forms.iter().map(|(_, f)| vec![special(*f, 2, 8, 7, 21)]).collect();
    images.push(program("by-zero-with-loose-fields", &loose).reg(7, OTHER).image());
    let turns: Vec<_> = forms.iter().flat_map(|(_, f)| divisions(*f, &[(2, 8), (2, 1)])).collect();
    images.push(program("by-zero-and-others-by-turns", &turns).image());
    images
}

#[cfg(test)]
mod tests {
    use super::*;
    use crate::answer::whole_answer;
    use crate::divisions::{all_by_zero, by_zero};
    use std::collections::BTreeSet;

    /// Gives the answer to the image of a name.
    fn answer(name: &str) -> String {
        let image = images().into_iter().find(|image| image.name == name).unwrap();
        whole_answer(&image.text, 0, &[])
    }

    /// Gives the value of a frame with a tag and a number.
    fn value(answer: &str, frame: &str) -> u64 {
        let line = answer.lines().find(|line| line.starts_with(frame)).unwrap();
        u64::from_str_radix(&line[4..], 16).unwrap()
    }

    /// Gives so many copies of HI, and of LO.
    fn copies(answer: &str, results: u32) -> (Vec<u64>, Vec<u64>) {
        let from = |first: u32| {
            (first..first + results).map(|r| value(answer, &format!("01{r:02x}"))).collect()
        };
        (from(9), from(17))
    }

    #[test]
    fn every_form_meets_a_zero_divisor_with_dividends_of_every_sign() {
        let met: BTreeSet<_> = images().iter().flat_map(by_zero).collect();
        assert_eq!(met, all_by_zero());
    }

    #[test]
    fn only_doubleword_forms_in_user_mode_raise() {
        for image in images() {
            let answer = whole_answer(&image.text, 0, &[]);
            assert!(answer.starts_with("0f00"), "{}", image.name);
            let (cause, epc) = (value(&answer, "040d"), value(&answer, "040e"));
            if image.name.contains("-dd") && image.name.contains("-in-user-mode") {
                assert_eq!(cause & 0x7fff_ffff, 10 << 2, "{}", image.name);
                assert_eq!((value(&answer, "0120"), value(&answer, "0121")), (OTHER, PATTERN));
                let slot = image.name.ends_with("-slot");
                assert_eq!((cause >> 31 & 1 == 1, epc == USER_CODE), (slot, slot));
                assert_eq!(value(&answer, "0117"), if slot { 0 } else { 5 });
            } else {
                assert_eq!((cause, epc), (0, 0), "{}", image.name);
            }
        }
    }

    #[test]
    fn copies_show_hi_and_lo() {
        for (form, negative) in [("div", 1), ("divu", MINUS), ("ddiv", 1), ("ddivu", MINUS)] {
            let answer = answer(&format!("by-zero-{form}-small-dividends"));
            let lo = vec![MINUS, MINUS, MINUS, negative, negative];
            assert_eq!(copies(&answer, 5), (vec![0, 1, 7, MINUS_7, MINUS], lo), "{form}");
        }
        let slots = (vec![MINUS_7, 7, 7, MINUS_7], vec![1, MINUS, MINUS, 1]);
        assert_eq!(copies(&answer("by-zero-div-in-slots"), 4), slots);
        assert_eq!(value(&answer("by-zero-div-in-slots"), "0106"), 6);
    }

    #[test]
    fn a_mill_finds_what_it_hopes_for() {
        for form in ["div", "divu", "ddiv", "ddivu"] {
            assert_eq!(value(&answer(&format!("by-zero-{form}-probe")), "0114"), 3);
        }
        assert_eq!(value(&answer("by-zero-probe-in-user-mode"), "0114"), 6);
    }
}
