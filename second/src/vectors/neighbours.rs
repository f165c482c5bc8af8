//! Groups of images that differ only in a neighbour's slots, and some whose slots are no neighbour's.

use super::common::{frame, OTHER, USER_CODE, USER_CODE_AT, USER_DATA_AT, USER_STATUS};
use crate::assemble::*;
use crate::cp0::number;
use crate::draft::{Draft, RAM_HIGH};
use crate::many::Image;

/// The address space of mill A, which runs.
const A: u32 = 1;
/// The address space of mill B, its neighbour.
const B: u32 = 2;
/// The slots of A's code and of the page that A uses.
const A_SLOTS: [u32; 2] = [9, 20];
/// The slots of the neighbour, below and above A's.
const B_SLOTS: [u32; 2] = [5, 30];
/// The virtual address of the page that A uses.
const PAGE: u32 = 0x0080_0000;
/// A page that A does not use.
const ELSEWHERE: u32 = 0x00c0_0000;
/// The physical addresses of A's page and of B's.
const A_AT: u32 = 0x5000;
const B_AT: u32 = 0x7000;
/// The physical address where the handler writes.
const LOG: u32 = 0xa000;
/// Where the code stands in a page that is jumped to.
const INSIDE: u32 = 0x40;

/// Images that are alike but for some slots.
type Group = Vec<Image>;

/// The values of a slot: PageMask, EntryHi, EntryLo0 and EntryLo1.
type Values = [u32; 4];

/// A handler that logs Cause and BadVAddr and returns past the instruction.
fn handler() -> Vec<u32> {
    let log = [mfc0(26, number::CAUSE), sw(26, 0, 27), mfc0(26, number::BAD_VADDR), sw(26, 4, 27)];
    let next = [mfc0(26, number::EPC), addiu(26, 26, 4), mtc0(26, number::EPC), addiu(27, 27, 8)];
    [&log[..], &next[..], &[ERET]].concat()
}

/// Gives a slot of two pages with the same low bits for both.
fn pair(page: u32, physical: u32, bits: u32) -> Values {
    [0, page, frame(physical, bits), frame(physical + 0x1000, bits)]
}

/// Starts A's program: loads, stores, a linked pair and a jump, all to the page.
fn mill(name: String) -> Draft {
    let code = [
        lw(1, 0, 10),
        access(0x22, 3, 1, 10), // lwl
        access(0x2e, 2, 6, 10), // swr
        access(0x30, 4, 0, 10), // ll
        access(0x38, 5, 0, 10), // sc
        sw(2, 8, 10),
        jr(11),
        ori(6, 0, 1),
    ];
    let log = handler();
    let general = [&[addiu(23, 23, 1)], &log[..]].concat();
    // For each word but the last two its exception, the handler, and one step more at the general
    // vector; then the last two, and a few in the page.
    let steps = 6 * (log.len() as u32 + 2) + 2 + 4;
    Draft::fresh(name)
        .cp0(number::STATUS, USER_STATUS)
        .cp0(number::ENTRY_HI, A as u64)
        .slot(A_SLOTS[0], [0, USER_CODE as u32 | A, frame(USER_CODE_AT, 2), frame(USER_DATA_AT, 6)])
        .pc(USER_CODE)
        .reg(2, 0x0102_0304_0506_0708)
        .reg(5, 0x1122_3344)
        .reg(10, PAGE as u64)
        .reg(11, (PAGE + INSIDE) as u64)
        .reg(27, RAM_HIGH + LOG as u64)
        .words(0x000, &log)
        .words(0x180, &general)
        .words(USER_CODE_AT, &code)
        .words(A_AT, &[0x8192_a3b4, 0xc5d6_e7f8])
        .words(A_AT + INSIDE, &[ori(7, 0, 0xa), sw(7, 0x10, 10)])
        .data(B_AT, OTHER)
        .words(B_AT + INSIDE, &[ori(7, 0, 0xb), sw(7, 0x10, 10)])
        .budget(steps)
}

/// Drafts a group: what A has at the page, the slots that differ, and their values by name.
fn group<const N: usize>(
    what: &str,
    page: Option<Values>,
    slots: [u32; N],
    cases: &[(&str, [Values; N])],
) -> Group {
    let image = |(which, values): &(&str, [Values; N])| {
        let mut draft = mill(format!("neighbour-{what}-{which}"));
        if let Some(own) = page {
            draft = draft.slot(A_SLOTS[1], own);
        }
        slots.iter().zip(values).fold(draft, |draft, (at, to)| draft.slot(*at, *to)).image()
    };
    cases.iter().map(image).collect()
}

/// Gives what A has at the page, by name.
fn pages() -> [(&'static str, Option<Values>); 5] {
    [
        ("no-page", None),
        ("own-page", Some(pair(PAGE | A, A_AT, 6))),
        ("global-page", Some(pair(PAGE | B, A_AT, 7))),
        ("invalid-page", Some(pair(PAGE | A, A_AT, 4))),
        ("clean-page", Some(pair(PAGE | A, A_AT, 2))),
    ]
}

/// Drafts every state of one slot of the neighbour's for everything A can have at the page.
fn one_slot() -> Vec<Group> {
    let [mask, hi, even, odd] = pair(PAGE | B, B_AT, 6);
    let states = [
        ("elsewhere", [pair(ELSEWHERE | B, B_AT, 6)]),
        ("dirty", [[mask, hi, even, odd]]),
        ("clean", [pair(PAGE | B, B_AT, 2)]),
        ("not-valid", [pair(PAGE | B, B_AT, 4)]),
        ("larger", [[0x1ff_e000, B, even, odd]]),
        ("other-space", [pair(PAGE | A ^ 0x80, B_AT, 6)]),
        ("half-global", [[mask, hi, even | 1, odd]]),
    ];
    let places = B_SLOTS.into_iter().cycle();
    pages().into_iter().zip(places).map(|((a, own), at)| group(a, own, [at], &states)).collect()
}

/// Drafts a neighbour at the ends of the search, and two slots that match one another.
fn two_slots() -> Vec<Group> {
    let own = pages()[1].1;
    let away = pair(ELSEWHERE | B, B_AT, 6);
    let there = pair(PAGE | B, B_AT, 6);
    let code = pair(USER_CODE as u32 | B, B_AT, 6);
    let ends = [("neither", [away, away]), ("first", [there, away]), ("last", [away, there])];
    let twins = [("apart", [away, there]), ("page", [there, there]), ("code", [code, code])];
    vec![
        group("ends", own, [0, 47], &ends),
        group("twins-own-page", own, B_SLOTS, &twins),
        group("twins-no-page", None, B_SLOTS, &twins),
    ]
}

/// Drafts slots that are no neighbour's, each group after one that is and differs in G or the ASID.
fn others() -> Vec<Group> {
    let cases = [
        ("foreign", [pair(PAGE | B, B_AT, 6)]),
        ("global", [pair(PAGE | B, B_AT, 7)]),
        ("current", [pair(PAGE | A, B_AT, 6)]),
    ];
    let draft =
        |(a, own): &(&str, Option<Values>)| group(&format!("not-{a}"), *own, [B_SLOTS[0]], &cases);
    pages()[..2].iter().map(draft).collect()
}

/// Gives the groups within which nothing else may differ after the run.
fn groups() -> Vec<Group> {
    one_slot().into_iter().chain(two_slots()).collect()
}

/// Gives all images of this subject.
pub fn images() -> Vec<Image> {
    groups().into_iter().chain(others()).flatten().collect()
}

#[cfg(test)]
mod tests {
    use super::*;
    use crate::answer::whole_answer;
    use crate::image::{read, RAM_LENGTH};
    use crate::neighbours::is_neighbours;
    use crate::tlb::{search, Found, Slot, SLOTS};
    use std::collections::BTreeSet;

    /// Gives the answer to an image, with another budget if one is given.
    fn answer(image: &Image, budget: Option<&str>) -> String {
        let length = image.text.len() - "0300000000\n".len();
        let (frames, own) = image.text.split_at(length);
        let budget = budget.map_or(own, str::as_bytes);
        whole_answer(&[frames, budget].concat(), image.lines, &[])
    }

    /// Gives the lines of a text that are no slot's, and those of slots.
    fn split(text: &str) -> (Vec<&str>, Vec<&str>) {
        text.lines().partition(|line| !line.starts_with("05"))
    }

    /// Gives the slots that differ between the images of a group, which are alike in all else.
    fn differing(group: &Group) -> BTreeSet<usize> {
        let texts = group.iter().map(|image| std::str::from_utf8(&image.text).unwrap());
        let parts: Vec<_> = texts.map(split).collect();
        assert!(parts.len() >= 2 && parts.iter().all(|part| part.0 == parts[0].0));
        let lines = parts.iter().flat_map(|part| &part.1);
        let different = lines.filter(|line| !parts.iter().all(|part| part.1.contains(line)));
        let slots: BTreeSet<usize> =
            different.map(|line| usize::from_str_radix(&line[2..4], 16).unwrap()).collect();
        assert!(!slots.is_empty());
        slots
    }

    /// Gives the slots of an image at first, whose ASID is A's.
    fn slots(image: &Image) -> [Slot; SLOTS] {
        let machine = read(&image.text, &mut vec![0; RAM_LENGTH]).unwrap().machine;
        assert_eq!(machine.cp0.asid(), A);
        machine.tlb
    }

    /// Gives an answer without the lines of some slots.
    fn without(answer: &str, slots: &BTreeSet<usize>) -> Vec<String> {
        let starts: Vec<String> = slots.iter().map(|slot| format!("05{slot:02x}")).collect();
        let other = |line: &&str| !starts.iter().any(|start| line.starts_with(start));
        answer.lines().filter(other).map(str::to_string).collect()
    }

    #[test]
    fn a_neighbours_slots_make_no_difference_and_stay() {
        for group in groups() {
            let own = differing(&group);
            let expected = without(&answer(&group[0], None), &own);
            for image in &group {
                let tlb = slots(image);
                assert!(own.iter().all(|slot| is_neighbours(&tlb[*slot], A)), "{}", image.name);
                let (first, last) = (answer(image, Some("0300000000\n")), answer(image, None));
                assert_eq!(without(&last, &own), expected, "{}", image.name);
                assert_eq!(split(&last).1, split(&first).1, "{}", image.name);
            }
        }
    }

    #[test]
    fn other_slots_make_a_difference() {
        for group in others() {
            let own = differing(&group);
            let expected = without(&answer(&group[0], None), &own);
            for (number, image) in group.iter().enumerate() {
                let tlb = slots(image);
                let is = own.iter().all(|slot| is_neighbours(&tlb[*slot], A));
                let same = without(&answer(image, None), &own) == expected;
                assert_eq!((is, same), (number == 0, number == 0), "{}", image.name);
            }
        }
    }

    #[test]
    fn twins_would_stop_their_own_space_and_not_a() {
        for image in two_slots().into_iter().flatten() {
            let found = |page, asid| search(&slots(&image), page, asid) == Found::Several;
            let twins = image.name.contains("twins") && !image.name.ends_with("apart");
            let [page, code] = [PAGE, USER_CODE as u32].map(|page| found(page, B));
            assert_eq!(page || code, twins, "{}", image.name);
            assert!(!found(PAGE, A) && !found(USER_CODE as u32, A), "{}", image.name);
        }
    }

    #[test]
    fn every_access_ends_as_its_page_says() {
        // The logged codes, the exceptions at the general vector, and r7, which the page's code sets.
        let ends: [(&[u64], u64, u64); 5] = [
            (&[2, 2, 3, 2, 3, 3, 2], 0, 0),
            (&[], 0, 0xa),
            (&[], 0, 0xa),
            (&[2, 2, 3, 2, 3, 3, 2], 7, 0),
            (&[1, 1, 1, 1], 4, 0xa),
        ];
        for (group, (logged, general, set)) in one_slot().iter().zip(ends) {
            let answer = answer(&group[0], None);
            let value = |start: &str| {
                let line = answer.lines().find(|line| line.starts_with(start));
                line.map_or(0, |line| u64::from_str_radix(&line[start.len()..], 16).unwrap())
            };
            let log: Vec<u64> =
                (0..8).map(|place| value(&format!("02{:08x}", LOG + 8 * place)) >> 34).collect();
            let (first, rest) = log.split_at(logged.len());
            assert_eq!((first, rest.iter().sum()), (logged, 0), "{}", group[0].name);
            assert_eq!((value("0117"), value("0107")), (general, set));
            assert!(answer.starts_with("0f00"));
        }
    }
}
