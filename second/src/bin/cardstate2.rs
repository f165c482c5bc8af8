//! Runs the image on standard input and prints the whole state.

use std::fs::File;
use std::io::Write;
use std::process::ExitCode;

use second::answer::{lines_argument, read_rom, read_text, whole_answer};

const WANTED: &str =
    "cardstate2 wants: [interrupt lines, 1 or 2 lowercase hexadecimal digits [boot ROM file]]";

/// Gives the lines and the boot ROM that the arguments name.
fn arguments() -> Option<(u32, Vec<u8>)> {
    let arguments: Vec<String> =
        std::env::args_os().skip(1).map(|a| a.into_string().ok()).collect::<Option<_>>()?;
    let lines = match arguments.first() {
        Some(lines) => lines_argument(lines)?,
        None => 0,
    };
    let rom = match arguments.get(1) {
        Some(name) => read_rom(File::open(name).ok()?).ok()?,
        None => Vec::new(),
    };
    if arguments.len() > 2 {
        return None;
    }
    Some((lines, rom))
}

/// Reads, runs and prints.
fn main() -> std::io::Result<ExitCode> {
    let Some((lines, rom)) = arguments() else {
        println!("{WANTED}");
        return Ok(ExitCode::from(2));
    };
    let text = read_text(std::io::stdin().lock())?;
    std::io::stdout().write_all(whole_answer(&text, lines, &rom).as_bytes())?;
    Ok(ExitCode::SUCCESS)
}
