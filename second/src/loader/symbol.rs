//! The value of a symbol (L17).

use super::elf::{b16, b32, is_linked, Refused};

/// The type of a section that holds symbols.
const SYMBOLS: u32 = 2;

/// The most bytes that a name may have.
const NAME_MOST: usize = 4_096;

/// The low bits of a symbol's info that name a file.
const OF_FILE: u8 = 4;

/// Gives a part of the file by its offset and length, or nothing where it is not all there.
fn part(file: &[u8], offset: u32, size: u32) -> Option<&[u8]> {
    file.get(offset as usize..)?.get(..size as usize)
}

/// Gives the bytes of the section whose header is given.
fn contents<'a>(file: &'a [u8], header: &[u8]) -> Option<&'a [u8]> {
    part(file, b32(header, 16), b32(header, 20))
}

/// Tells whether a name begins at a place of the names, with a byte 0 after it.
fn is_named(names: &[u8], at: u32, name: &[u8]) -> bool {
    match names.get(at as usize..) {
        Some(rest) => rest.starts_with(name) && rest.get(name.len()) == Some(&0),
        None => false,
    }
}

/// Finds the value of a name in a file that is linked.
fn find(file: &[u8], name: &[u8]) -> Option<u32> {
    let (size, count) = (b16(file, 46), b16(file, 48));
    if size != 40 || name.is_empty() || name.len() > NAME_MOST {
        return None;
    }
    let sections: Vec<&[u8]> = part(file, b32(file, 32), 40 * count)?.chunks_exact(40).collect();
    let table = sections.iter().find(|header| b32(header, 4) == SYMBOLS)?;
    let symbols = contents(file, table)?;
    let names = contents(file, sections.get(b32(table, 24) as usize)?)?;
    symbols
        .chunks_exact(16)
        .find(|s| b16(s, 14) != 0 && s[12] % 16 != OF_FILE && is_named(names, b32(s, 0), name))
        .map(|symbol| b32(symbol, 4))
}

/// Gives the value of a symbol, or the refusal.
pub fn value(file: &[u8], name: &[u8]) -> Result<u32, Refused> {
    is_linked(file)?;
    find(file, name).ok_or(Refused { number: 23, about: 0 })
}
