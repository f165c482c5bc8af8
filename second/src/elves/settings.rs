//! Settings: those that undo, those that are damaged, and those that are too long.

use super::make::*;
use super::{alone, kernel, over, program, user, Case, BUDGET};

/// The small world's own text puts these frames; settings may repeat them.
const OWN: [&str; 7] = [
    "050000000000004000010000004200000000",
    "050100000000004100010000008600000000",
    "0502000000007fffe00100000000000000c6",
    "040c0000000000000010",
    "040a0000000000000001",
    "011d000000007ffffff0",
    "01220000000000400000",
];

/// Frames that leave the world as it is.
const HARMLESS: [&str; 24] = [
    "01010123456789abcdef",
    "011d0000000000000000",
    "0120ffffffffffffffff",
    "0121ffffffffffffffff",
    "01220000000000000000",
    "0122000000007fffffff",
    "01220000000000400001",
    "01000000000000000000",
    "04000000000000000001",
    "0402000000000000ffff",
    "0403ffffffffffffffff",
    "0404ffffffffffffffff",
    "04050000000000006000",
    "0406000000000000002f",
    "040900000000ffffffff",
    "040a00000000ffffff01",
    "040a0000000000400f01",
    "040b0000000000000001",
    "040c000000000040ff11",
    "040cffffffff00000010",
    "040d0000000000000300",
    "040e0000000000400000",
    "041effffffffffffffff",
    "02000030000000000000000000",
];

/// Frames that undo, or are refused by the reader.
const HARMFUL: [&str; 43] = [
    "050000000000004000010000004600000000",
    "050000000000004000010000004000000000",
    "050000000000004000020000004200000000",
    "050000000000004000010000004300000001",
    "050000000000004000010000004200000007",
    "050000000000004000010000004a00000000",
    "050000000000004000010000008200000000",
    "050000006000004000010000004200000000",
    "050000000000004020010000004200000000",
    "050200000000004000010000004200000000",
    "050300000000004000010000004200000000",
    "050300000000006000010000000000000000",
    "052f00000000800000000000000000000000",
    "052f00000000004000010000004200000000",
    "053000000000004000010000004200000000",
    "050000002000004000010000004200000000",
    "02000000000000000000000000",
    "02000000000000000000000001",
    "02000010000000000000000000",
    "02000030000000000000000001",
    "02000040000000000000000001",
    "0200000000ffffffffffffffff",
    "0200000fff0000000000000000",
    "02000100000000000000000000",
    "040c0000000000000000",
    "040c0000000000000012",
    "040c0000000000000014",
    "040c0000000000000016",
    "040c0000000000000008",
    "040c0000000000000018",
    "040c0000000010000010",
    "040c0000000010000000",
    "040c0000000010000012",
    "040c0000000020000010",
    "040c0000000000000090",
    "040a0000000000000000",
    "040a0000000000000002",
    "040a00000000000000ff",
    "01220000000080000000",
    "0122ffffffff80000000",
    "0122ffffffff00000000",
    "01220000000100000000",
    "0122ffffffffffffffff",
];

/// Texts that are no settings.
const TEXTS: [&str; 28] = [
    "",
    "\n",
    "03",
    "0300000010",
    "0300000010\n\n",
    "0300000010\n0300000010\n",
    "0300000010\n01010000000000000001\n",
    "0300000010\r\n",
    "030000001\n",
    "03000000100\n",
    "0300000g10\n",
    "030000001A\n",
    "0400000010\n",
    "01010000000000000001\n",
    "0101000000000000000\n0300000010\n",
    "0f0000000000\n0300000010\n",
    "0d0000000000\n",
    "0123000000000000000\n0300000010\n",
    "01230000000000000000\n0300000010\n",
    "01000000000000000001\n0300000010\n",
    "04070000000000000000\n0300000010\n",
    "04050000000000002000\n0300000010\n",
    "# 0300000010\n",
    "\0",
    "0300000010\n\0",
    " 0300000010\n",
    "0300000000\n",
    "03ffffffff\n",
];

/// Gives a case with settings in place of the plain budget.
fn set(case: Case, settings: impl Into<Vec<u8>>) -> Case {
    Case { settings: settings.into(), ..case }
}

/// Gives the cases.
pub fn cases() -> Vec<Case> {
    let plain = |name: String| over(name, program().bytes());
    let mut cases = Vec::new();
    for (i, frame) in OWN.iter().chain(&HARMLESS).chain(&HARMFUL).enumerate() {
        let text = format!("{frame}\n0300000010\n");
        cases.push(set(plain(format!("settings-{i}")), text.clone()));
        let repeated = format!("{frame}\n{}\n0300000010\n", OWN.join("\n"));
        cases.push(set(plain(format!("settings-{i}-and-back")), repeated));
        cases.push(set(alone(format!("alone-settings-{i}"), kernel().bytes()), text));
    }
    for (i, text) in TEXTS.iter().enumerate() {
        cases.push(set(plain(format!("text-{i}")), *text));
        cases.push(set(alone(format!("alone-text-{i}"), kernel().bytes()), *text));
    }
    cases.extend(pairs());
    cases.extend(lengths());
    cases
}

/// Two frames that undo: the first of the order counts, not of the text.
fn pairs() -> Vec<Case> {
    let six = [
        "050300000000004000010000004200000000",
        "02000000000000000000000001",
        "040c0000000010000000",
        "040c0000000010000010",
        "040a0000000000000000",
        "0122ffffffff80000000",
    ];
    let mut cases = Vec::new();
    for (i, one) in six.iter().enumerate() {
        for (j, other) in six.iter().enumerate().filter(|(j, _)| *j != i) {
            let text = format!("{one}\n{other}\n0300000010\n");
            cases.push(set(over(format!("undone-{i}-{j}"), program().bytes()), text));
        }
    }
    cases
}

/// Gives settings of so many bytes, of harmless frames that are 21, 27 and 37 bytes long.
fn padded(length: usize) -> Vec<u8> {
    let rest = length - BUDGET.len();
    let counts = (0..21).flat_map(|slots| (0..7).map(move |zeros| (slots, zeros)));
    let fits = |(slots, zeros): &(usize, usize)| (rest - 37 * slots - 27 * zeros) % 21 < 1;
    let (slots, zeros) = counts.into_iter().find(fits).unwrap_or_default();
    let registers = (rest - 37 * slots - 27 * zeros) / 21;
    let text = format!("{}\n", OWN[2]).repeat(slots)
        + &"02000030000000000000000000\n".repeat(zeros)
        + &"01010000000000000001\n".repeat(registers);
    [text.as_bytes(), BUDGET].concat()
}

/// Texts of 65,536 bytes and of one more, by their settings and by their files; settings that fill their room.
fn lengths() -> Vec<Case> {
    let mut cases = Vec::new();
    let world = || over("", program().bytes());
    let head = crate::loader::outcome(&world().task, &world().files, BUDGET).out.len();
    for length in [65_530, 65_535, 65_536, 65_537, 65_538, 65_545] {
        let name = format!("long-text-{length}");
        let settings = padded(length - head + BUDGET.len());
        cases.push(Case { name, settings, ..world() });
    }
    for length in [65_535, 65_536, 65_537] {
        cases.push(set(over(format!("settings-of-{length}"), program().bytes()), padded(length)));
        let name = format!("alone-settings-of-{length}");
        cases.push(set(alone(name, kernel().bytes()), padded(length)));
        let name = format!("settings-of-{length}-to-no-file");
        cases.push(set(over(name, Vec::new()), padded(length)));
    }
    // Files of so many doublewords that only fewer fit.
    for size in [0x4a00, 0x4a80, 0x4b00, 0x4b80, 0x4c00, 0x8000, 0xd000] {
        let elf = Elf::of(vec![load(0x40_0000, marks(1, size), size, WRITE)]);
        cases.push(over(format!("long-program-{size:x}"), elf.bytes()));
        let elf = Elf::of(vec![load(0x8000_0000, marks(1, size), size, WRITE)]);
        cases.push(alone(format!("alone-long-{size:x}"), elf.bytes()));
        let zeros = Elf::of(vec![load(0x8000_0000, vec![0; size as usize], size, WRITE)]);
        cases.push(alone(format!("alone-zeros-{size:x}"), zeros.bytes()));
    }
    // Too long, and no image besides.
    let long = Elf::of(vec![load(0x40_0000, marks(1, 0x8000), 0x8000, WRITE)]);
    cases.push(set(over("long-and-no-image", long.bytes()), "zz\n"));
    cases.push(set(user("no-image-and-no-vector", vec![program().bytes(); 2]), "zz\n"));
    cases
}
