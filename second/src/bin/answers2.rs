//! Answers every image of a many-image file with its whole state.

use std::fs::File;
use std::io::{BufWriter, Write};
use std::path::Path;
use std::process::ExitCode;

use second::answer::{read_rom, whole_answer};
use second::many::{split, Image};

/// Reads the boot ROM of an image, whose file stands beside the many-image file.
fn rom(image: &Image, beside: &Path) -> Result<Vec<u8>, String> {
    match &image.rom {
        None => Ok(Vec::new()),
        Some(name) => File::open(beside.with_file_name(name))
            .and_then(read_rom)
            .map_err(|error| format!("boot ROM {name} of {}: {error}", image.name)),
    }
}

/// Answers all images of a file.
fn answer(path: &Path) -> Result<(), String> {
    let file = std::fs::read(path).map_err(|error| format!("{}: {error}", path.display()))?;
    let images = split(&file).map_err(|line| format!("line {line} should be a header"))?;
    let mut out = BufWriter::new(std::io::stdout().lock());
    for image in &images {
        let answer = whole_answer(&image.text, image.lines, &rom(image, path)?);
        write!(out, "# {}\n{answer}", image.name).map_err(|error| error.to_string())?;
    }
    out.flush().map_err(|error| error.to_string())
}

/// Reads the file named by the only argument and prints the answers.
fn main() -> ExitCode {
    let arguments: Vec<_> = std::env::args_os().skip(1).collect();
    let outcome = match &arguments[..] {
        [path] => answer(Path::new(path)),
        _ => Err("wanted: the name of a file of images".to_string()),
    };
    match outcome {
        Ok(()) => ExitCode::SUCCESS,
        Err(message) => {
            eprintln!("answers2: {message}");
            ExitCode::FAILURE
        }
    }
}
