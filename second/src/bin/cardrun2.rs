//! Runs the image on standard input and prints its registers.

use std::io::Write;

use second::answer::{read_text, short_answer};

/// Reads, runs and prints.
fn main() -> std::io::Result<()> {
    let text = read_text(std::io::stdin().lock())?;
    std::io::stdout().write_all(short_answer(&text).as_bytes())
}
