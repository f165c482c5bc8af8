//! Mutated and damaged image texts.

use super::random::Random;

const HEXADECIMAL: &[u8] = b"0123456789abcdef";
/// Characters that no frame holds; none of them begins a header line.
const STRANGE: &[u8] = b"gzABCDEFG \t\r\0-+/:`@.,xX\x7f\x0b\x0c\"'";
/// Tags that are no input frame.
const TAGS: [&[u8]; 12] =
    [b"00", b"06", b"07", b"08", b"0a", b"0e", b"0f", b"10", b"11", b"20", b"0G", b"0A"];
/// Frames whose values are not allowed.
const FORBIDDEN: [&str; 12] = [
    "01000000000000000001",
    "01230000000000000000",
    "01ff1234567890abcdef",
    "02000000040000000000000000",
    "02000100000000000000000000",
    "0200000ff90000000000000000",
    "04070000000000000000",
    "041f0000000000000000",
    "040c0000000000000008",
    "040500000000000fe000",
    "053000000000000000000000000000000000",
    "050000002000000000000000000000000000",
];

/// Splits a text into lines without their LF.
fn lines_of(text: &str) -> Vec<Vec<u8>> {
    text.lines().map(|line| line.as_bytes().to_vec()).collect()
}

/// Joins lines, each ended by LF, and keeps every budget small.
fn joined(mut lines: Vec<Vec<u8>>) -> Vec<u8> {
    for line in &mut lines {
        if line.len() == 10 && line.starts_with(b"03") {
            line[2..8].fill(b'0');
        }
    }
    let mut text = Vec::new();
    for line in lines {
        text.extend_from_slice(&line);
        text.push(b'\n');
    }
    text
}

/// Gives the place of some line.
fn some_line(random: &mut Random, lines: &[Vec<u8>]) -> usize {
    random.below(lines.len() as u64) as usize
}

/// Changes digits, order and presence of frames, so that the text often stays an image.
pub fn mutated(random: &mut Random, text: String) -> Vec<u8> {
    let mut lines = lines_of(&text);
    for _ in 0..1 + random.below(6) {
        let place = some_line(random, &lines);
        match random.below(8) {
            0 if lines.len() > 2 => {
                lines.remove(place);
            }
            1 => lines.insert(place, lines[place].clone()),
            2 => {
                let other = some_line(random, &lines);
                lines.swap(place, other);
            }
            _ => {
                let line = &mut lines[place];
                let at = random.below(line.len() as u64) as usize;
                line[at] = random.pick(HEXADECIMAL);
            }
        }
    }
    joined(lines)
}

/// Makes a letter of a line a capital, if it has one.
fn capital(line: &mut [u8]) {
    if let Some(letter) = line.iter_mut().find(|byte| byte.is_ascii_lowercase()) {
        letter.make_ascii_uppercase();
    }
}

/// Does one damage to the lines of an image.
fn damage(random: &mut Random, lines: &mut Vec<Vec<u8>>) {
    let place = some_line(random, lines);
    let last = lines.len() - 1;
    match random.below(18) {
        0 => {
            let tag = random.pick(&TAGS);
            lines[place].splice(0..2, tag.iter().copied());
        }
        1 => {
            lines[place].pop();
        }
        2 => lines[place].push(random.pick(HEXADECIMAL)),
        3 => {
            let at = random.below(lines[place].len() as u64) as usize;
            lines[place][at] = random.pick(STRANGE);
        }
        4 => capital(&mut lines[place]),
        5 => lines[place].push(b'\r'),
        6 => lines[place].insert(0, b' '),
        7 => lines[place].push(b' '),
        8 => lines.insert(place, Vec::new()),
        9 | 10 => lines.insert(place, random.pick(&FORBIDDEN).as_bytes().to_vec()),
        11 => {
            lines.remove(last);
        }
        12 => lines.push(lines[last].clone()),
        13 => lines.push(lines[place].clone()),
        14 => lines.push(random.pick(&FORBIDDEN).as_bytes().to_vec()),
        15 if last > 0 => {
            let after = lines.remove(place.max(1));
            lines[place.max(1) - 1].extend_from_slice(&after);
        }
        16 => {
            let half = lines[place].len() / 2;
            let rest = lines[place].split_off(half);
            lines.insert(place + 1, rest);
        }
        _ => lines.iter_mut().for_each(|line| line.push(b'\r')),
    }
}

/// Damages a text once or twice, and takes the final LF away only where that is allowed.
pub fn damaged(random: &mut Random, text: String, may_lack_lf: bool) -> Vec<u8> {
    let mut lines = lines_of(&text);
    // A short text puts the damage near its budget more often.
    if random.one_in(2) {
        let keep = 1 + some_line(random, &lines) % 6;
        let cut = lines.len().saturating_sub(keep);
        lines.drain(..cut);
    }
    damage(random, &mut lines);
    if random.one_in(4) && !lines.is_empty() {
        damage_again(random, &mut lines);
    }
    let mut text = joined(lines);
    if may_lack_lf {
        text.pop();
    }
    text
}

/// Does a second damage where no line has become empty.
fn damage_again(random: &mut Random, lines: &mut Vec<Vec<u8>>) {
    if lines.iter().all(|line| line.len() > 2) {
        damage(random, lines);
    }
}

#[cfg(test)]
mod tests {
    use super::*;
    use crate::image::{read, RAM_LENGTH};

    const TEXT: &str = "0122ffffffff80000000\n02000000002408000501084821\n0300000002\n";

    #[test]
    fn mutated_texts_often_stay_images() {
        let mut ram = vec![0; RAM_LENGTH];
        let accepted = (0..400)
            .filter(|number| {
                let text = mutated(&mut Random::new(1, *number), TEXT.to_string());
                read(&text, &mut ram).is_ok()
            })
            .count();
        assert!((40..390).contains(&accepted), "{accepted}");
    }

    #[test]
    fn damaged_texts_are_mostly_refused_in_every_way() {
        let mut ram = vec![0; RAM_LENGTH];
        let mut counts = [0; 9];
        for number in 0..1000 {
            let text = damaged(&mut Random::new(2, number), TEXT.to_string(), number % 100 == 0);
            assert!(!text.starts_with(b"# ") && !text.windows(3).any(|three| three == b"\n# "));
            let refused = read(&text, &mut ram).map_or_else(|refusal| refusal.number, |_| 0);
            counts[refused as usize] += 1;
        }
        assert!(counts[6] > 100 && counts[7] > 50 && counts[8] > 50, "{counts:?}");
        assert!(counts[0] < 250, "{counts:?}");
    }
}
