//! Prints the fresh machine's whole answer, then the answers on standard input without the lines that equal its lines.

use std::io::{BufRead, BufWriter, Write};

use second::answer::whole_answer;

/// An image that leaves the machine fresh.
const FRESH: &[u8] = b"0300000000\n";

/// What begins the line before an answer.
const HEADER: &str = "# ";

/// Copies headers, and the lines of answers that differ from the line at the same place of the base.
fn differences(base: &str, answers: impl BufRead, mut out: impl Write) -> std::io::Result<()> {
    let base: Vec<&str> = base.lines().collect();
    let mut place = 0;
    for line in answers.lines() {
        let line = line?;
        if line.starts_with(HEADER) {
            place = 0;
            writeln!(out, "{line}")?;
        } else {
            if base.get(place) != Some(&line.as_str()) {
                writeln!(out, "{line}")?;
            }
            place += 1;
        }
    }
    out.flush()
}

/// Reads the answers that `answers2` printed.
fn main() -> std::io::Result<()> {
    let base = whole_answer(FRESH, 0, &[]);
    let mut out = BufWriter::new(std::io::stdout().lock());
    write!(out, "{base}")?;
    differences(&base, std::io::stdin().lock(), out)
}

#[cfg(test)]
mod tests {
    use super::*;

    #[test]
    fn only_lines_that_differ_are_kept() {
        let mut out = Vec::new();
        let answers = "# one\na\nc\nb\n# two\na\nb\n# three\nb\n".as_bytes();
        differences("a\nb\n", answers, &mut out).unwrap();
        assert_eq!(out, b"# one\nc\nb\n# two\n# three\nb\n");
    }
}
