//! Prints the curated images as a many-image file, or writes the ROM files they name.

use std::io::Write;
use std::path::Path;
use std::process::ExitCode;

use second::many::join;
use second::vectors::{all, rom_files};

/// Writes the ROM files into a directory.
fn write_roms(directory: &Path) -> std::io::Result<()> {
    for (name, bytes) in rom_files() {
        std::fs::write(directory.join(name), bytes)?;
    }
    Ok(())
}

/// Prints the images, or with `roms DIRECTORY` writes the ROM files there.
fn main() -> std::io::Result<ExitCode> {
    let arguments: Vec<String> = std::env::args().skip(1).collect();
    match &arguments[..] {
        [] => std::io::stdout().write_all(&join(&all()))?,
        [word, directory] if word == "roms" => write_roms(Path::new(directory))?,
        _ => {
            println!("vectors2 wants: nothing, or roms DIRECTORY");
            return Ok(ExitCode::from(2));
        }
    }
    Ok(ExitCode::SUCCESS)
}
