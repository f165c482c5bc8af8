//! Prints random images from a seed as a many-image file.

use std::io::{BufWriter, Write};
use std::process::ExitCode;

use second::generate::series;
use second::many::join;

/// Gives the seed and the count that the arguments name.
fn arguments() -> Option<(u64, u64)> {
    let arguments: Vec<String> = std::env::args().skip(1).collect();
    match &arguments[..] {
        [seed, count] => Some((seed.parse().ok()?, count.parse().ok()?)),
        _ => None,
    }
}

/// Prints the images.
fn main() -> std::io::Result<ExitCode> {
    let Some((seed, count)) = arguments() else {
        println!("generate wants: SEED COUNT, both decimal numbers");
        return Ok(ExitCode::from(2));
    };
    let mut out = BufWriter::new(std::io::stdout().lock());
    for image in series(seed, count) {
        out.write_all(&join(&[image]))?;
    }
    out.flush()?;
    Ok(ExitCode::SUCCESS)
}
