//! Curated images, each named for what it covers.

mod arithmetic;
mod branches;
mod by_zero;
mod common;
mod cp0;
mod decoding;
mod exceptions;
mod frames;
mod linked;
mod loads;
mod neighbours;
mod pages;
mod roms;
mod stops;
mod timers;
mod tlb;
mod user;
mod zero;

use crate::many::Image;

pub use roms::files as rom_files;

/// Gives all curated images, the one without a final LF last.
pub fn all() -> Vec<Image> {
    let mut images = Vec::new();
    images.extend(arithmetic::images());
    images.extend(by_zero::images());
    images.extend(branches::images());
    images.extend(loads::images());
    images.extend(linked::images());
    images.extend(zero::images());
    images.extend(exceptions::images());
    images.extend(pages::images());
    images.extend(tlb::images());
    images.extend(cp0::images());
    images.extend(timers::images());
    images.extend(stops::images());
    images.extend(decoding::images());
    images.extend(user::images());
    images.extend(neighbours::images());
    images.extend(roms::images());
    images.extend(frames::images());
    images
}

#[cfg(test)]
mod tests {
    use super::*;
    use crate::answer::whole_answer;
    use crate::assemble::{copy, sd, NOP};
    use crate::decode::decode;
    use crate::destination::{all_to_r0, destination, words_of};
    use crate::instruction::Code;
    use crate::many::{join, split};
    use std::collections::BTreeSet;

    /// Gives the boot ROM of an image.
    fn rom(image: &Image) -> Vec<u8> {
        match &image.rom {
            None => Vec::new(),
            Some(name) => {
                let files = rom_files();
                files.into_iter().find(|(file, _)| file == name).unwrap().1
            }
        }
    }

    #[test]
    fn names_are_unique_and_plain() {
        let images = all();
        let names: BTreeSet<&str> = images.iter().map(|image| image.name.as_str()).collect();
        assert_eq!(names.len(), images.len());
        for name in names {
            assert!(name
                .bytes()
                .all(|b| b.is_ascii_lowercase() || b.is_ascii_digit() || b == b'-'));
        }
    }

    #[test]
    fn the_file_splits_into_the_same_images() {
        let images = all();
        assert_eq!(split(&join(&images)), Ok(images));
    }

    #[test]
    fn every_number_but_those_no_image_can_reach_is_answered() {
        let mut numbers = BTreeSet::new();
        let mut codes = BTreeSet::new();
        for image in all() {
            let answer = whole_answer(&image.text, image.lines, &rom(&image));
            numbers.insert(u32::from_str_radix(&answer[2..4], 16).unwrap());
            if let Some(at) = answer.find("\n040d") {
                let cause = u64::from_str_radix(&answer[at + 5..at + 21], 16).unwrap();
                codes.insert(cause >> 2 & 31);
            }
        }
        assert_eq!(numbers, BTreeSet::from([0, 2, 3, 5, 6, 7, 8, 16, 17, 18]));
        assert_eq!(codes, (0..14).collect());
    }

    /// Tells whether a word stores r0 or copies it.
    fn shows_r0(word: u32) -> bool {
        word & 0xfc1f_0000 == sd(0, 0, 0) || word & !(31 << 11) == copy(0, 0)
    }

    #[test]
    fn every_instruction_with_a_destination_is_tried_with_r0_and_shows_it() {
        let kind = |word: u32| format!("{:?}", decode(Code(word)));
        let mut tried = BTreeSet::new();
        for image in all() {
            for pair in words_of(&image).windows(2) {
                if pair[0] != NOP && destination(pair[0]) == Some(0) && shows_r0(pair[1]) {
                    tried.insert(kind(pair[0]));
                }
            }
        }
        assert_eq!(tried, all_to_r0().into_iter().map(kind).collect());
    }
}
