//! Tests of the cases: their names differ, and every refusal occurs.

use super::*;
use crate::loader::answer;
use std::collections::{BTreeMap, BTreeSet};

/// Counts the refusals of cases, 0 for those accepted.
fn counts(cases: impl Iterator<Item = Case>) -> BTreeMap<u32, u32> {
    let mut counts = BTreeMap::new();
    for case in cases {
        let number =
            answer(&case.task, &case.files, &case.settings).map_or_else(|r| r.number, |_| 0);
        *counts.entry(number).or_insert(0) += 1;
    }
    counts
}

#[test]
fn names_differ() {
    let names: Vec<String> = curated().into_iter().map(|case| case.name).collect();
    let calls = calls().into_iter().map(|call| call.name);
    let mut seen = BTreeSet::new();
    for name in names.into_iter().chain(calls) {
        assert!(seen.insert(name.clone()), "{name}");
        assert!(name.bytes().all(|byte| byte.is_ascii_alphanumeric() || byte == b'-'), "{name}");
    }
}

#[test]
fn every_refusal_occurs_among_the_curated() {
    let counts = counts(curated().into_iter());
    for number in (0..=21).chain([23]) {
        assert!(counts.get(&number).is_some_and(|count| *count > 1), "{number} of {counts:?}");
    }
}

#[test]
fn damage_is_refused_in_many_ways_and_often_accepted() {
    let counts = counts((0..2000).map(|number| damaged(1, number)));
    assert!(counts[&0] > 2000 / 4, "{counts:?}");
    for number in (1..=16).chain([18, 20, 21, 23]) {
        assert!(counts.get(&number).is_some_and(|count| *count > 3), "{number} of {counts:?}");
    }
}
