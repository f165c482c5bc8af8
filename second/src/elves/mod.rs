//! ELF files for a loader: good ones, ones at every edge, and damaged ones by a seed.

mod attempt;
mod cuts;
mod damage;
mod entries;
mod fields;
mod headers;
mod kernels;
pub(crate) mod make;
mod notes;
mod places;
mod rooms;
mod segments;
mod settings;
mod symbols;
pub(crate) mod worlds;

pub use attempt::attempt;
pub use damage::damaged;
pub use rooms::{calls, Call};

use crate::loader::Task;
use make::{load, marks, Elf, ALL, CODE, WRITE};

/// A task for a loader with all that it is given.
#[derive(Clone, Debug)]
pub struct Case {
    pub name: String,
    pub task: Task,
    pub files: Vec<Vec<u8>>,
    pub settings: Vec<u8>,
}

/// Settings that only give a budget.
const BUDGET: &[u8] = b"0300000010\n";

/// Gives a small kernel that has code at both vectors.
fn kernel() -> Elf {
    Elf::of(vec![load(0x8000_0000, marks(1, 0x190), 0x190, ALL)])
}

/// Gives a small User program of code, and of data with a tail.
fn program() -> Elf {
    Elf::of(vec![
        load(0x0040_0000, marks(2, 0x40), 0x40, CODE),
        load(0x0041_0010, marks(3, 0x20), 0x60, WRITE),
    ])
}

/// Asks for an image of files, the kernel first.
fn user(name: impl Into<String>, files: Vec<Vec<u8>>) -> Case {
    Case { name: name.into(), task: Task::User, files, settings: BUDGET.to_vec() }
}

/// Asks for an image of a program over the small kernel.
fn over(name: impl Into<String>, file: Vec<u8>) -> Case {
    user(name, vec![kernel().bytes(), file])
}

/// Asks for an image of the small program over a kernel.
fn beneath(name: impl Into<String>, file: Vec<u8>) -> Case {
    user(name, vec![file, program().bytes()])
}

/// Asks for an image of a program in Kernel mode.
fn alone(name: impl Into<String>, file: Vec<u8>) -> Case {
    Case { task: Task::Kernel, ..user(name, vec![file]) }
}

/// Asks for the value of a symbol.
fn value(name: impl Into<String>, file: Vec<u8>, symbol: &[u8]) -> Case {
    let settings = Vec::new();
    Case { task: Task::Symbol(symbol.to_vec()), settings, ..user(name, vec![file]) }
}

/// Gives all curated cases.
pub fn curated() -> Vec<Case> {
    [
        fields::cases(),
        headers::cases(),
        notes::cases(),
        segments::cases(),
        entries::cases(),
        kernels::cases(),
        places::cases(),
        symbols::cases(),
        settings::cases(),
        cuts::cases(),
    ]
    .concat()
}

#[cfg(test)]
mod tests;
