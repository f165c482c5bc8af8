//! The reader of image texts.

use crate::cp0::{is_kept, move_is_not_built};
use crate::machine::Machine;
use crate::tlb::{mask_is_legal, Slot, SlotValues, SLOTS};

/// The longest text.
pub const TEXT_MOST: usize = 65_536;
/// The length of the RAM that an image fills.
pub const RAM_LENGTH: usize = 65_536;

/// The refusal of an image with the line it names.
#[derive(Clone, Copy, Debug, PartialEq, Eq)]
pub struct Refusal {
    pub number: u32,
    pub line: u32,
}

/// What an image gives beside RAM.
#[derive(Clone, Debug, PartialEq, Eq)]
pub struct Start {
    pub machine: Machine,
    pub budget: u32,
}

/// One frame of an image.
#[derive(Clone, Copy, Debug, PartialEq, Eq)]
enum Frame {
    Register { number: u32, value: u64 },
    Memory { address: u32, bytes: u64 },
    Budget { steps: u32 },
    Cp0 { number: u32, value: u64 },
    Slot { place: u32, values: SlotValues },
}

/// Splits the first line, without its LF, from a text, or gives nothing without an LF.
fn next_line(text: &[u8]) -> Option<(&[u8], &[u8])> {
    let end = text.iter().position(|byte| *byte == b'\n')?;
    Some((&text[..end], &text[end + 1..]))
}

/// Gives the value of one lowercase hexadecimal digit.
fn digit(byte: u8) -> Option<u64> {
    match byte {
        b'0'..=b'9' => Some((byte - b'0') as u64),
        b'a'..=b'f' => Some((byte - b'a') as u64 + 10),
        _ => None,
    }
}

/// Reads up to sixteen hexadecimal digits.
fn hexadecimal(digits: &[u8]) -> Option<u64> {
    digits.iter().try_fold(0, |value, byte| Some(value << 4 | digit(*byte)?))
}

/// Cuts a line into hexadecimal fields of the given widths that must fill it.
fn fields<const N: usize>(line: &[u8], widths: [usize; N]) -> Option<[u64; N]> {
    if line.len() != widths.iter().sum::<usize>() {
        return None;
    }
    let mut values = [0; N];
    let mut at = 0;
    for (value, width) in values.iter_mut().zip(widths) {
        *value = hexadecimal(&line[at..at + width])?;
        at += width;
    }
    Some(values)
}

/// Reads a line as a frame, whatever its values, or gives nothing.
fn frame(line: &[u8]) -> Option<Frame> {
    match line.get(..2)? {
        b"01" => fields(line, [2, 2, 16])
            .map(|[_, number, value]| Frame::Register { number: number as u32, value }),
        b"02" => fields(line, [2, 8, 16])
            .map(|[_, address, bytes]| Frame::Memory { address: address as u32, bytes }),
        b"03" => fields(line, [2, 8]).map(|[_, steps]| Frame::Budget { steps: steps as u32 }),
        b"04" => fields(line, [2, 2, 16])
            .map(|[_, number, value]| Frame::Cp0 { number: number as u32, value }),
        b"05" => {
            fields(line, [2, 2, 8, 8, 8, 8]).map(|[_, place, mask, hi, lo0, lo1]| Frame::Slot {
                place: place as u32,
                values: SlotValues {
                    page_mask: mask as u32,
                    entry_hi: hi as u32,
                    entry_lo0: lo0 as u32,
                    entry_lo1: lo1 as u32,
                },
            })
        }
        _ => None,
    }
}

/// Tells whether the values of a frame are allowed.
fn is_allowed(frame: Frame) -> bool {
    match frame {
        Frame::Register { number, value } => number <= 0x22 && (number != 0 || value == 0),
        Frame::Memory { address, .. } => address % 8 == 0 && address <= 0xfff8,
        Frame::Budget { .. } => true,
        Frame::Cp0 { number, value } => is_kept(number) && !move_is_not_built(number, value),
        Frame::Slot { place, values } => {
            (place as usize) < SLOTS && mask_is_legal(values.page_mask)
        }
    }
}

/// Lets an allowed frame act on the machine and RAM.
fn act(frame: Frame, machine: &mut Machine, ram: &mut [u8]) {
    match frame {
        Frame::Register { number: 0x20, value } => machine.hi = value,
        Frame::Register { number: 0x21, value } => machine.lo = value,
        Frame::Register { number: 0x22, value } => machine.pc = value,
        Frame::Register { number, value } => machine.set_gpr(number as usize, value),
        Frame::Memory { address, bytes } => {
            let at = address as usize;
            ram[at..at + 8].copy_from_slice(&bytes.to_be_bytes());
        }
        Frame::Budget { .. } => {}
        Frame::Cp0 { number, value } => machine.cp0.write(number, value),
        Frame::Slot { place, values } => machine.tlb[place as usize] = Slot::written(values),
    }
}

/// Reads a whole image into a machine, a budget and RAM, which a refusal leaves unchanged.
pub fn read(text: &[u8], ram: &mut [u8]) -> Result<Start, Refusal> {
    if ram.len() != RAM_LENGTH {
        return Err(Refusal { number: 1, line: 0 });
    }
    if text.len() > TEXT_MOST {
        return Err(Refusal { number: 5, line: 0 });
    }
    let mut machine = Machine::fresh();
    let mut filled = vec![0; RAM_LENGTH];
    let mut budget = None;
    let mut rest = text;
    let mut line = 1;
    while !rest.is_empty() {
        let (current, after) = next_line(rest).ok_or(Refusal { number: 6, line })?;
        let frame = frame(current).ok_or(Refusal { number: 6, line })?;
        if !is_allowed(frame) {
            return Err(Refusal { number: 7, line });
        }
        if budget.is_some() {
            return Err(Refusal { number: 8, line });
        }
        if let Frame::Budget { steps } = frame {
            budget = Some(steps);
        }
        act(frame, &mut machine, &mut filled);
        rest = after;
        line += 1;
    }
    let budget = budget.ok_or(Refusal { number: 8, line })?;
    ram.copy_from_slice(&filled);
    Ok(Start { machine, budget })
}

#[cfg(test)]
mod tests {
    use super::*;

    /// Reads a text into RAM full of a mark and checks that a refusal leaves the mark.
    fn outcome(text: &[u8]) -> Result<Start, (u32, u32)> {
        let mut ram = vec![0x5a; RAM_LENGTH];
        read(text, &mut ram).map_err(|refusal| {
            assert!(ram.iter().all(|byte| *byte == 0x5a));
            (refusal.number, refusal.line)
        })
    }

    /// Gives the refusal of a text that must be refused.
    fn refused(text: &str) -> (u32, u32) {
        outcome(text.as_bytes()).unwrap_err()
    }

    #[test]
    fn lines_that_are_no_frames() {
        for text in [
            "\n",
            "0300000002",
            "0300000002\r\n",
            " 0300000002\n",
            "0300000002 \n",
            "03\n",
            "030000002\n",
            "03000000002\n",
            "030000000G\n",
            "030000000A\n",
            "0000000002\n",
            "0f0000000002\n",
            "0a0000000002\n",
            "0\n",
            "0122ffffffff8000000\n",
            "0122ffffffff800000000\n",
            "04010000000g\n",
            "0300000002\0\n",
            "\u{e9}300000002\n",
            "0600000002\n",
            "# 0300000002\n",
        ] {
            assert_eq!(refused(text), (6, 1), "{text:?}");
        }
        assert_eq!(refused("0122ffffffff80000000\n0300000002"), (6, 2));
    }

    #[test]
    fn values_that_are_not_allowed() {
        for text in [
            "01230000000000000000\n",
            "01ff0000000000000000\n",
            "01000000000000000001\n",
            "02000000040000000000000000\n",
            "02000100000000000000000000\n",
            "02ffff00000000000000000000\n",
            "04070000000000000000\n",
            "04120000000000000000\n",
            "041f0000000000000000\n",
            "04200000000000000000\n",
            "040c0000000000000008\n",
            "040c0000000002000000\n",
            "04050000000000002000\n",
            "053000000000000000000000000000000000\n",
            "050000002000000000000000000000000000\n",
        ] {
            assert_eq!(refused(text), (7, 1), "{text:?}");
        }
    }

    #[test]
    fn budgets_missing_or_not_last() {
        assert_eq!(refused(""), (8, 1));
        assert_eq!(refused("0122ffffffff80000000\n"), (8, 2));
        assert_eq!(refused("0300000002\n0300000002\n"), (8, 2));
        assert_eq!(refused("0300000002\n0122ffffffff80000000\nzz\n"), (8, 2));
        assert_eq!(refused("0300000002\n01ff0000000000000000\n"), (7, 2));
        assert_eq!(refused("0300000002\nzz\n"), (6, 2));
        assert_eq!(refused("0300000002\n0300000002"), (6, 2));
        assert_eq!(refused("0300000002\n\n"), (6, 2));
    }

    #[test]
    fn lengths_of_text_and_ram() {
        let mut long = b"0122ffffffff80000000\n".repeat(3121);
        long.truncate(65_536);
        assert_eq!(outcome(&long), Err((6, 3121)));
        long.push(b'\n');
        assert_eq!(outcome(&long), Err((5, 0)));
        let mut ram = vec![0; 65_528];
        assert_eq!(read(&long, &mut ram), Err(Refusal { number: 1, line: 0 }));
    }

    #[test]
    fn frames_act_and_later_ones_override() {
        let text = "01010000000000000001\n01011234567890abcdef\n0120000000000000000a\n\
            0121000000000000000b\n01000000000000000000\n0200000008ffffffffffffffff\n\
            02000000080102030405060708\n0406ffffffffffffffc5\n0401000000000000000f\n\
            0404ffffffffffffffff\n052f00006000fffffffffffffffffffffffe\n0300000010\n";
        let mut ram = vec![0x5a; RAM_LENGTH];
        let start = read(text.as_bytes(), &mut ram).unwrap();
        assert_eq!(start.budget, 16);
        let machine = start.machine;
        assert_eq!((machine.gpr[1], machine.hi, machine.lo), (0x1234_5678_90ab_cdef, 10, 11));
        assert_eq!(&ram[..17], &[0, 0, 0, 0, 0, 0, 0, 0, 1, 2, 3, 4, 5, 6, 7, 8, 0]);
        assert_eq!((machine.cp0.wired, machine.cp0.random), (5, 47));
        assert_eq!(machine.cp0.context, 0xffff_ffff_ff80_0000);
        let values = machine.tlb[47].values();
        assert_eq!((values.page_mask, values.entry_hi), (0x6000, 0xffff_80ff));
        assert_eq!((values.entry_lo0, values.entry_lo1), (0x3fff_fffe, 0x3fff_fffe));
        assert!(machine.in_range());
    }
}
