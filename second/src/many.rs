//! Files that hold many images, each after a header line.

/// One image with the circumstances of its run.
#[derive(Clone, Debug, PartialEq, Eq)]
pub struct Image {
    pub name: String,
    pub lines: u32,
    /// The name of the boot ROM's file, or nothing.
    pub rom: Option<String>,
    pub text: Vec<u8>,
}

/// What begins a header line.
const HEADER: &[u8] = b"# ";

/// Gives the header line of an image.
fn header(image: &Image) -> String {
    let rom = image.rom.as_deref().unwrap_or("-");
    format!("# {} {:02x} {rom}\n", image.name, image.lines)
}

/// Joins images into one file; only the last may lack its final LF.
pub fn join(images: &[Image]) -> Vec<u8> {
    let mut file = Vec::new();
    for image in images {
        file.extend_from_slice(header(image).as_bytes());
        file.extend_from_slice(&image.text);
    }
    file
}

/// Reads a header line into an image without text.
fn read_header(line: &[u8]) -> Option<Image> {
    let line = std::str::from_utf8(line).ok()?.trim_end_matches('\n');
    let words: Vec<&str> = line.split(' ').collect();
    let [_, name, lines, rom] = words[..] else {
        return None;
    };
    Some(Image {
        name: name.to_string(),
        lines: u32::from_str_radix(lines, 16).ok()?,
        rom: if rom == "-" { None } else { Some(rom.to_string()) },
        text: Vec::new(),
    })
}

/// Splits a file into its images, or names the line that is no header.
pub fn split(file: &[u8]) -> Result<Vec<Image>, usize> {
    let mut images: Vec<Image> = Vec::new();
    for (place, line) in file.split_inclusive(|byte| *byte == b'\n').enumerate() {
        if line.starts_with(HEADER) {
            images.push(read_header(line).ok_or(place + 1)?);
        } else {
            images.last_mut().ok_or(place + 1)?.text.extend_from_slice(line);
        }
    }
    Ok(images)
}

#[cfg(test)]
mod tests {
    use super::*;

    /// Gives an image with a name, lines, a ROM and a text.
    fn image(name: &str, lines: u32, rom: Option<&str>, text: &str) -> Image {
        Image {
            name: name.to_string(),
            lines,
            rom: rom.map(str::to_string),
            text: text.as_bytes().to_vec(),
        }
    }

    #[test]
    fn joined_images_split_again() {
        let images = vec![
            image("one", 0, None, "0300000001\n"),
            image("empty", 31, Some("boot.rom"), ""),
            image("unended", 32, None, "\n#0300000001\n0300000001"),
        ];
        let file = join(&images);
        assert!(file.starts_with(b"# one 00 -\n0300000001\n# empty 1f boot.rom\n# unended 20 -\n"));
        assert_eq!(split(&file), Ok(images));
    }

    #[test]
    fn bad_headers_are_named() {
        assert_eq!(split(b"0300000001\n"), Err(1));
        assert_eq!(split(b"# a 00 -\n\n# b\n"), Err(3));
        assert_eq!(split(b""), Ok(Vec::new()));
    }
}
