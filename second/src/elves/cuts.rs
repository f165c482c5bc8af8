//! Files cut short at every length, and files that are no ELF.

use super::{alone, beneath, kernel, over, program, value, Case};

/// Gives the cases.
pub fn cases() -> Vec<Case> {
    let mut cases = Vec::new();
    let file = program().bytes();
    for length in 0..=file.len() {
        cases.push(over(format!("cut-{length}"), file[..length].to_vec()));
        if length < 60 {
            cases.push(value(format!("symbol-cut-{length}"), file[..length].to_vec(), b"main"));
        }
    }
    let file = kernel().bytes();
    for length in (0..100).chain(file.len() - 20..file.len()) {
        cases.push(beneath(format!("kernel-cut-{length}"), file[..length].to_vec()));
        cases.push(alone(format!("alone-cut-{length}"), file[..length].to_vec()));
    }
    for (name, bytes) in [
        ("text", b"0300000010\n".to_vec()),
        ("script", b"#!/bin/sh\nexit 0\n".to_vec()),
        ("zeros", vec![0; 4096]),
        ("ones", vec![0xff; 4096]),
        ("archive", b"!<arch>\n".repeat(20)),
        ("magic", b"\x7fELF".repeat(30)),
        ("lower", [b"\x7felf".to_vec(), file[4..].to_vec()].concat()),
        ("little", little()),
        ("wide", wide()),
        ("dos", b"MZ\x90\0".repeat(20)),
    ] {
        cases.push(over(format!("no-elf-{name}"), bytes.clone()));
        cases.push(beneath(format!("kernel-no-elf-{name}"), bytes.clone()));
        cases.push(alone(format!("alone-no-elf-{name}"), bytes.clone()));
        cases.push(value(format!("symbol-no-elf-{name}"), bytes, b"main"));
    }
    cases
}

/// Gives the header of a little-endian program.
fn little() -> Vec<u8> {
    let mut file = program().bytes();
    file[5] = 1;
    for at in (16..20).step_by(2) {
        file.swap(at, at + 1);
    }
    file
}

/// Gives the header of a 64-bit program.
fn wide() -> Vec<u8> {
    let mut file = program().bytes();
    file[4] = 2;
    file.insert(24, 0);
    file
}
