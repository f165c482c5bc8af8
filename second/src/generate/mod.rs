//! Random images from a seed.

mod instructions;
mod program;
pub(crate) mod random;
pub(crate) mod texts;
mod values;
#[cfg(test)]
mod worlds;

use crate::many::Image;
use random::Random;

/// Gives the image of a number under a seed; only the last of a series may lack its final LF.
pub fn image(seed: u64, number: u64, last: bool) -> Image {
    let mut random = Random::new(seed, number);
    let lines = if random.one_in(6) { random.below(32) as u32 } else { 0 };
    let draft = program::draft(&mut random);
    let text = match random.below(8) {
        0 => texts::mutated(&mut random, draft.text()),
        1 => texts::damaged(&mut random, draft.text(), last),
        _ => draft.text().into_bytes(),
    };
    Image { name: format!("r-{seed}-{number}"), lines, rom: None, text }
}

/// Gives a series of images under a seed.
pub fn series(seed: u64, count: u64) -> impl Iterator<Item = Image> {
    (0..count).map(move |number| image(seed, number, number + 1 == count))
}

#[cfg(test)]
mod tests {
    use super::*;
    use crate::answer::whole_answer;
    use crate::assemble::NOP;
    use crate::decode::decode;
    use crate::destination::{destination, words_of};
    use crate::divisions::{all_by_zero, by_zero};
    use crate::instruction::{Code, Instruction};
    use crate::many::{join, split};
    use crate::neighbours::met;
    use std::collections::{BTreeMap, BTreeSet};

    #[test]
    fn the_same_seed_gives_the_same_images() {
        let first: Vec<Image> = series(7, 20).collect();
        assert_eq!(first, series(7, 20).collect::<Vec<_>>());
        assert_ne!(first, series(8, 20).collect::<Vec<_>>());
    }

    #[test]
    fn images_are_short_and_split_again() {
        let images: Vec<Image> = series(1, 400).collect();
        assert!(images.iter().all(|image| image.text.len() < 65_536));
        assert!(images.iter().all(|image| image.lines < 32));
        assert_eq!(split(&join(&images)), Ok(images));
    }

    #[test]
    fn budgets_are_small() {
        for image in series(2, 400) {
            for line in image.text.split(|byte| *byte == b'\n') {
                if line.len() == 10 && line.starts_with(b"03") {
                    assert!(line[2..8].iter().all(|byte| *byte == b'0'), "{}", image.name);
                }
            }
        }
    }

    #[test]
    fn words_to_r0_occur_often() {
        let mut images = 0;
        let mut kinds = BTreeMap::new();
        for image in series(5, 400) {
            let mut found = BTreeSet::new();
            for word in words_of(&image) {
                if word != NOP && destination(word) == Some(0) {
                    found.extend(match decode(Code(word)) {
                        Instruction::Load(_) => Some("load"),
                        Instruction::Store(_) => Some("linked store"),
                        Instruction::JumpRegister { .. } | Instruction::MoveFromCp0 { .. } => None,
                        _ => Some("computing"),
                    });
                }
            }
            images += !found.is_empty() as u32;
            for kind in found {
                *kinds.entry(kind).or_insert(0) += 1;
            }
        }
        assert!(images > 400 / 3, "{images}");
        assert!(kinds.len() == 3 && kinds.values().all(|count| *count > 400 / 16), "{kinds:?}");
    }

    #[test]
    fn every_division_by_zero_occurs_often() {
        let mut counts: BTreeMap<_, _> = all_by_zero().into_iter().map(|kind| (kind, 0)).collect();
        for image in series(6, 4000) {
            for kind in by_zero(&image) {
                *counts.entry(kind).or_insert(0) += 1;
            }
        }
        assert!(counts.values().all(|count| *count > 4000 / 100), "{counts:?}");
    }

    #[test]
    fn addresses_that_a_neighbours_slot_covers_occur_often() {
        let mut images = 0;
        let mut uses = BTreeMap::new();
        for image in series(9, 2000) {
            let found = met(&image);
            images += !found.is_empty() as u32;
            for purpose in found {
                *uses.entry(purpose).or_insert(0) += 1;
            }
        }
        assert!(images > 2000 / 20, "{images}");
        assert!(uses.len() == 3 && uses.values().all(|count| *count > 2000 / 100), "{uses:?}");
    }

    #[test]
    fn every_outcome_and_exception_occurs() {
        let mut numbers = BTreeMap::new();
        let mut codes = BTreeMap::new();
        for image in series(3, 4000) {
            let answer = whole_answer(&image.text, image.lines, &[]);
            *numbers.entry(answer[..4].to_string()).or_insert(0) += 1;
            if let Some(at) = answer.find("\n040d") {
                let cause = u64::from_str_radix(&answer[at + 5..at + 21], 16).unwrap();
                *codes.entry(cause >> 2 & 31).or_insert(0) += 1;
            }
        }
        for expected in ["0f00", "0f10", "0f11", "0f12", "0e06", "0e07", "0e08"] {
            assert!(numbers.get(expected).is_some_and(|count| *count > 5), "{numbers:?}");
        }
        for code in 0..14 {
            assert!(codes.get(&code).is_some_and(|count| *count > 5), "{codes:?}");
        }
    }
}
