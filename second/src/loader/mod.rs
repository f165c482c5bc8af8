//! A second loader: from programs' files and a kernel's to an image text, by the rules L1 to L27.

mod elf;
mod place;
mod symbol;
mod text;

use elf::Role;
pub use elf::{Program, Segment};
pub use place::{place, Placed};

/// The room for all files together.
pub const FILES_MOST: usize = 4_194_304;
/// The room for the settings.
pub const SETTINGS_MOST: usize = 65_536;
/// The most User programs of one image.
pub const PROGRAMS_MOST: usize = 7;

/// What is asked of the loader.
#[derive(Clone, Debug, PartialEq, Eq)]
pub enum Task {
    /// An image of User programs; the kernel is file 0.
    User,
    /// An image of one program in Kernel mode.
    Kernel,
    /// The value of a symbol by its name.
    Symbol(Vec<u8>),
}

/// A refusal: its number, the file it is of and what it is about.
#[derive(Clone, Copy, Debug, PartialEq, Eq)]
pub struct Refusal {
    pub number: u32,
    pub file: usize,
    pub about: u32,
}

/// How the loader ends and what it writes; a line about status 1 is in nobody's rules and left out.
#[derive(Clone, Debug, PartialEq, Eq)]
pub struct Outcome {
    pub status: u8,
    pub out: Vec<u8>,
    pub err: Vec<u8>,
}

/// Gives the image of User programs over a kernel.
fn user(files: &[Vec<u8>], settings: &[u8]) -> Result<Vec<u8>, Refusal> {
    let programs = read_user(files)?;
    let placed = place(&programs)?;
    text::user(&placed, programs[1].entry, settings)
}

/// Reads the kernel and the User programs over it.
pub fn read_user(files: &[Vec<u8>]) -> Result<Vec<Program<'_>>, Refusal> {
    let mut programs = Vec::new();
    for (number, file) in files.iter().enumerate() {
        let role = if number == 0 { Role::KernelBelow } else { Role::User };
        programs.push(elf::read(file, role).map_err(|refused| refused.of(number))?);
    }
    Ok(programs)
}

/// Gives the image of one program in Kernel mode.
fn kernel(file: &[u8], settings: &[u8]) -> Result<Vec<u8>, Refusal> {
    let program = elf::read(file, Role::Kernel).map_err(|refused| refused.of(0))?;
    text::kernel(&place::kernel_ram(&program), program.entry, settings)
}

/// Gives the whole answer to a task over its files and settings.
pub fn answer(task: &Task, files: &[Vec<u8>], settings: &[u8]) -> Result<Vec<u8>, Refusal> {
    match task {
        Task::User => user(files, settings),
        Task::Kernel => kernel(&files[0], settings),
        Task::Symbol(name) => symbol::value(&files[0], name)
            .map(|value| format!("{value:08x}\n").into_bytes())
            .map_err(|refused| refused.of(0)),
    }
}

/// Gives the line that a refusal prints.
fn line(refusal: Refusal) -> Vec<u8> {
    format!("0d{:02x}{:02x}{:08x}\n", refusal.number, refusal.file, refusal.about).into_bytes()
}

/// Gives the end of the whole program once everything is read.
pub fn outcome(task: &Task, files: &[Vec<u8>], settings: &[u8]) -> Outcome {
    let all: usize = files.iter().map(Vec::len).sum();
    let with_settings = matches!(task, Task::User | Task::Kernel);
    if all > FILES_MOST || with_settings && settings.len() > SETTINGS_MOST {
        return Outcome { status: 1, out: Vec::new(), err: Vec::new() };
    }
    match answer(task, files, settings) {
        Ok(out) => Outcome { status: 0, out, err: Vec::new() },
        Err(refusal) => Outcome { status: 3, out: Vec::new(), err: line(refusal) },
    }
}

#[cfg(test)]
mod tests;
