//! An independent second emulator of the card, kept only for comparison.

pub mod access;
pub mod address;
pub mod answer;
pub mod assemble;
pub mod branch;
pub mod bytes;
pub mod cp0;
pub mod decode;
pub mod draft;
pub mod elves;
pub mod exception;
pub mod execute;
pub mod generate;
pub mod image;
pub mod instruction;
pub mod loader;
pub mod machine;
pub mod many;
pub mod memory;
pub mod output;
pub mod run;
pub mod step;
pub mod system;
pub mod tlb;
pub mod vectors;
pub mod word;

#[cfg(test)]
mod bench;
#[cfg(test)]
mod destination;
#[cfg(test)]
mod divisions;
#[cfg(test)]
mod neighbours;
#[cfg(test)]
mod reached;
