//! Every computing instruction over tables of edge operands.

use super::common::{skipping, END};
use crate::assemble::*;
use crate::draft::{Draft, RAM_HIGH};
use crate::many::Image;

/// Operands at the ends of words and doublewords.
const EDGES: [u64; 12] = [
    0,
    1,
    2,
    0x7fff_ffff,
    0x8000_0000,
    0xffff_ffff,
    0xffff_ffff_8000_0000,
    0xffff_ffff_ffff_ffff,
    0x7fff_ffff_ffff_ffff,
    0x8000_0000_0000_0000,
    0x1234_5678_9abc_def0,
    0xffff_ffff_ffff_fff9,
];

/// Shift counts around the limits of five and six bits.
const COUNTS: [u64; 12] =
    [0, 1, 4, 15, 31, 32, 33, 62, 63, 64, 0x1_0000_0021, 0xffff_ffff_ffff_ffff];

/// Divisors with zeros in one or both words.
const DIVISORS: [u64; 12] = [
    0,
    1,
    2,
    0xffff_ffff_ffff_ffff,
    0xffff_ffff_ffff_fffe,
    7,
    0x1_0000_0000,
    0xffff_ffff_8000_0000,
    0x8000_0000,
    0x8000_0000_0000_0000,
    0x7fff_ffff_ffff_ffff,
    0xffff_ffff,
];

/// The 16-bit immediates tried.
const IMMEDIATES: [u32; 6] = [0, 1, 0x7fff, 0x8000, 0xfff9, 0xffff];

/// The physical addresses of the two tables and of the results.
const FIRST: u32 = 0x4000;
const SECOND: u32 = 0x4100;
const RESULTS: u32 = 0x5000;
/// What the result register holds before the instruction.
const MARK: u64 = 0xaaaa_5555_aaaa_5555;
/// Enough steps for any of the loops, which end by a stop.
const ENOUGH: u32 = 20_000;

/// Three-register instructions by name and function.
const REGISTER: [(&str, u32); 14] = [
    ("add", 0x20),
    ("addu", 0x21),
    ("sub", 0x22),
    ("subu", 0x23),
    ("and", 0x24),
    ("or", 0x25),
    ("xor", 0x26),
    ("nor", 0x27),
    ("slt", 0x2a),
    ("sltu", 0x2b),
    ("dadd", 0x2c),
    ("daddu", 0x2d),
    ("dsub", 0x2e),
    ("dsubu", 0x2f),
];

/// Variable shifts by name and function.
const VARIABLE: [(&str, u32); 6] = [
    ("sllv", 0x04),
    ("srlv", 0x06),
    ("srav", 0x07),
    ("dsllv", 0x14),
    ("dsrlv", 0x16),
    ("dsrav", 0x17),
];

/// Shifts by an amount, by name and function.
const SHIFTS: [(&str, u32); 9] = [
    ("sll", 0x00),
    ("srl", 0x02),
    ("sra", 0x03),
    ("dsll", 0x38),
    ("dsrl", 0x3a),
    ("dsra", 0x3b),
    ("dsll32", 0x3c),
    ("dsrl32", 0x3e),
    ("dsra32", 0x3f),
];

/// Products and quotients by name and function.
pub const MULDIV: [(&str, u32); 8] = [
    ("mult", 0x18),
    ("multu", 0x19),
    ("div", 0x1a),
    ("divu", 0x1b),
    ("dmult", 0x1c),
    ("dmultu", 0x1d),
    ("ddiv", 0x1e),
    ("ddivu", 0x1f),
];

/// Immediate instructions by name and opcode.
const IMMEDIATE: [(&str, u32); 10] = [
    ("addi", 0x08),
    ("addiu", 0x09),
    ("slti", 0x0a),
    ("sltiu", 0x0b),
    ("andi", 0x0c),
    ("ori", 0x0d),
    ("xori", 0x0e),
    ("lui", 0x0f),
    ("daddi", 0x18),
    ("daddiu", 0x19),
];

/// Traps by name and function.
const TRAPS: [(&str, u32); 6] =
    [("tge", 0x30), ("tgeu", 0x31), ("tlt", 0x32), ("tltu", 0x33), ("teq", 0x34), ("tne", 0x36)];

/// Traps on an immediate, by name and REGIMM code.
const IMMEDIATE_TRAPS: [(&str, u32); 6] = [
    ("tgei", 0x08),
    ("tgeiu", 0x09),
    ("tlti", 0x0a),
    ("tltiu", 0x0b),
    ("teqi", 0x0c),
    ("tnei", 0x0e),
];

/// Puts a table of doublewords into RAM.
fn table(mut draft: Draft, address: u32, values: &[u64]) -> Draft {
    for (place, value) in values.iter().enumerate() {
        draft = draft.data(address + 8 * place as u32, *value);
    }
    draft
}

/// Drafts a double loop: r1 and r2 run through two tables, the body leaves results for r12.
fn double_loop(name: &str, first: &[u64], second: &[u64], body: &[u32]) -> Image {
    let size = body.len() as i32;
    let mut code = vec![ld(1, 0, 10), ld(2, 0, 11), copy(3, 20), copy(22, 0)];
    code.extend_from_slice(body);
    code.extend_from_slice(&[
        addiu(11, 11, 8),
        bne(11, 14, -(size + 5)),
        NOP,
        addiu(10, 10, 8),
        bne(10, 15, -(size + 9)),
        copy(11, 13),
    ]);
    code.extend_from_slice(&END);
    let at = |address: u32| RAM_HIGH + address as u64;
    let draft = Draft::kernel(name)
        .reg(10, at(FIRST))
        .reg(11, at(SECOND))
        .reg(12, at(RESULTS))
        .reg(13, at(SECOND))
        .reg(14, at(SECOND + 8 * second.len() as u32))
        .reg(15, at(FIRST + 8 * first.len() as u32))
        .reg(20, MARK)
        .code(&code)
        .budget(ENOUGH);
    skipping(table(table(draft, FIRST, first), SECOND, second)).image()
}

/// Gives a body that runs a word and stores a register.
fn storing(word: u32, result: u32) -> Vec<u32> {
    vec![word, sd(result, 0, 12), addiu(12, 12, 8)]
}

/// Gives a body that runs a word and stores HI and LO.
fn storing_hi_lo(word: u32) -> Vec<u32> {
    vec![
        word,
        special(0x10, 0, 0, 4, 0),
        special(0x12, 0, 0, 5, 0),
        sd(4, 0, 12),
        sd(5, 8, 12),
        addiu(12, 12, 16),
    ]
}

/// Drafts a loop of r2 through a table with one body for all words.
fn single_loop(name: &str, words: &[u32], result: u32) -> Image {
    let body: Vec<u32> = words
        .iter()
        .flat_map(|word| [copy(3, 20), copy(22, 0), *word, sd(result, 0, 12), addiu(12, 12, 8)])
        .collect();
    double_loop(name, &[0], &EDGES, &body)
}

/// Drafts moves to and from HI and LO, also to r0, which is shown in r5 and r6.
fn hi_lo_moves() -> Image {
    let code = [
        special(0x11, 1, 0, 0, 0),
        special(0x13, 2, 0, 0, 0),
        special(0x10, 0, 0, 3, 0),
        special(0x12, 0, 0, 4, 0),
        special(0x10, 0, 0, 0, 0),
        copy(5, 0),
        special(0x12, 0, 0, 0, 0),
        copy(6, 0),
    ];
    Draft::kernel("hi-lo-moves")
        .reg(1, EDGES[10])
        .reg(2, EDGES[9])
        .reg(5, MARK)
        .reg(6, MARK)
        .code(&code)
        .image()
}

/// Gives all images of this subject.
pub fn images() -> Vec<Image> {
    let mut images = vec![hi_lo_moves()];
    for (name, function) in REGISTER {
        let body = storing(special(function, 1, 2, 3, 0), 3);
        images.push(double_loop(&format!("{name}-edges"), &EDGES, &EDGES, &body));
    }
    for (name, function) in VARIABLE {
        let body = storing(special(function, 2, 1, 3, 0), 3);
        images.push(double_loop(&format!("{name}-edges"), &EDGES, &COUNTS, &body));
    }
    for (name, function) in MULDIV {
        let second = if function & 2 == 0 { &EDGES } else { &DIVISORS };
        let body = storing_hi_lo(special(function, 1, 2, 0, 0));
        images.push(double_loop(&format!("{name}-edges"), &EDGES, second, &body));
    }
    for (name, function) in TRAPS {
        let body = storing(special(function, 1, 2, 0, 0), 22);
        images.push(double_loop(&format!("{name}-edges"), &EDGES, &EDGES, &body));
    }
    for (name, function) in SHIFTS {
        let words: Vec<u32> =
            [0, 1, 15, 16, 31].iter().map(|amount| special(function, 0, 2, 3, *amount)).collect();
        images.push(single_loop(&format!("{name}-edges"), &words, 3));
    }
    for (name, opcode) in IMMEDIATE {
        let words: Vec<u32> =
            IMMEDIATES.iter().map(|value| immediate(opcode, 2, 3, *value)).collect();
        images.push(single_loop(&format!("{name}-edges"), &words, 3));
    }
    for (name, sub) in IMMEDIATE_TRAPS {
        let words: Vec<u32> = IMMEDIATES.iter().map(|value| regimm(sub, 2, *value)).collect();
        images.push(single_loop(&format!("{name}-edges"), &words, 22));
    }
    images
}

#[cfg(test)]
mod tests {
    use super::*;
    use crate::answer::whole_answer;

    #[test]
    fn loops_end_by_their_stop_and_fill_their_results() {
        for image in images().iter().skip(1) {
            let answer = whole_answer(&image.text, 0, &[]);
            assert!(answer.starts_with("0f11"), "{}", image.name);
        }
        let addu = images().into_iter().find(|image| image.name == "addu-edges").unwrap();
        let answer = whole_answer(&addu.text, 0, &[]);
        // The result of 7fffffff and 1, the fourth row's second.
        let place = RESULTS + 8 * (3 * 12 + 1);
        assert!(answer.contains(&format!("02{place:08x}ffffffff80000000\n")));
    }
}
