//! From an image text to its answer.

use std::io::Read;

use crate::image::{read, Refusal, RAM_LENGTH, TEXT_MOST};
use crate::memory::{Memory, ROM_MOST};
use crate::output;
use crate::run::{refusal, run};

/// Reads at most one byte more than the longest text.
pub fn read_text(source: impl Read) -> std::io::Result<Vec<u8>> {
    let mut text = Vec::new();
    source.take(TEXT_MOST as u64 + 1).read_to_end(&mut text)?;
    Ok(text)
}

/// Reads at most one byte more than the longest boot ROM.
pub fn read_rom(source: impl Read) -> std::io::Result<Vec<u8>> {
    let mut rom = Vec::new();
    source.take(ROM_MOST as u64 + 1).read_to_end(&mut rom)?;
    Ok(rom)
}

/// Gives the answer of `cardrun` to an image.
pub fn short_answer(text: &[u8]) -> String {
    let mut ram = vec![0; RAM_LENGTH];
    match read(text, &mut ram) {
        Err(refused) => output::refusal(refused),
        Ok(mut start) => {
            let mut memory = Memory { ram: &mut ram, rom: &[] };
            let ending = run(&mut start.machine, &mut memory, 0, start.budget);
            output::short(ending, &start.machine)
        }
    }
}

/// Gives the whole state after an image's run under lines and with a boot ROM.
pub fn whole_answer(text: &[u8], lines: u32, rom: &[u8]) -> String {
    let mut ram = vec![0; RAM_LENGTH];
    match read(text, &mut ram) {
        Err(refused) => output::refusal(refused),
        Ok(mut start) => {
            let mut memory = Memory { ram: &mut ram, rom };
            if let Some(number) = refusal(&start.machine, &memory, lines) {
                return output::refusal(Refusal { number, line: 0 });
            }
            let ending = run(&mut start.machine, &mut memory, lines, start.budget);
            output::whole(ending, &start.machine, &ram)
        }
    }
}

/// Reads interrupt lines of one or two lowercase hexadecimal digits.
pub fn lines_argument(argument: &str) -> Option<u32> {
    let digits = argument.as_bytes();
    let hexadecimal = digits.iter().all(|byte| matches!(byte, b'0'..=b'9' | b'a'..=b'f'));
    if hexadecimal && (1..=2).contains(&digits.len()) {
        u32::from_str_radix(argument, 16).ok()
    } else {
        None
    }
}

#[cfg(test)]
mod tests {
    use super::*;

    const WORKED: &str = "02000000002408000501084821\n0122ffffffff80000000\n0300000002\n";

    #[test]
    fn the_worked_image() {
        assert_eq!(
            short_answer(WORKED.as_bytes()),
            "0f0000000002\n01080000000000000005\n0109000000000000000a\n0122ffffffff80000008\n"
        );
    }

    #[test]
    fn endless_texts_are_cut_short() {
        let text = read_text(std::io::repeat(b'0')).unwrap();
        assert_eq!(short_answer(&text), "0e0500000000\n");
    }

    #[test]
    fn refusals_of_the_run_name_line_zero() {
        assert_eq!(whole_answer(WORKED.as_bytes(), 32, &[]), "0e0300000000\n");
        assert_eq!(whole_answer(WORKED.as_bytes(), 32, &[0; 4]), "0e0200000000\n");
        assert_eq!(whole_answer(b"", 32, &[0; 4]), "0e0800000001\n");
        assert!(whole_answer(WORKED.as_bytes(), 31, &[0; 8]).starts_with("0f0000000002\n"));
    }

    #[test]
    fn lines_are_one_or_two_digits() {
        assert_eq!(lines_argument("1f"), Some(31));
        assert_eq!(lines_argument("ff"), Some(255));
        assert_eq!(lines_argument("3"), Some(3));
        for bad in ["", "1F", "100", "0x", "-1", "+1", " 1", "g"] {
            assert_eq!(lines_argument(bad), None);
        }
    }
}
