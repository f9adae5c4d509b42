//! The stored inputs of the fuzz target, and some new ones.

use antenna_tests::random::Random;
use antenna_tests::suite::fuzz::{mutate, one, seed, Made};
use std::collections::{BTreeMap, BTreeSet};
use std::path::Path;

/// The call and the number of an answer stand in front of most names.
fn by_name(name: &str) -> Option<(u8, u32)> {
    let (call, rest) = name.split_once('-')?;
    let number = rest.split('-').next()?;
    Some((call.parse().ok()?, number.parse().ok()?))
}

/// The numbers that each call can answer with, 20 in version 2 alone. Def's nets are of version 1.
const ANSWERS: [&[u32]; 5] = [
    &[0, 2, 3, 4, 5, 6, 7, 8, 9, 10, 11, 20],
    &[0, 4, 5, 6, 7, 8, 9, 10, 11, 16, 20],
    &[0, 1, 2, 3, 4, 5, 6, 7, 8, 9, 10, 11, 12, 13, 14, 16, 20],
    &[0, 1, 2, 3, 4, 5, 6, 7, 8, 9, 10, 11, 15, 20],
    &[0, 4, 6, 7, 10, 11, 16, 17, 18, 19],
];

fn answers(call: u8, version: u32) -> BTreeSet<u32> {
    let can = |number: &u32| match version {
        1 => *number != 20,
        _ => call != 4,
    };
    let all = ANSWERS[usize::from(call)].iter().copied();
    all.filter(can).collect()
}

#[test]
fn corpus() {
    let folder = Path::new(env!("CARGO_MANIFEST_DIR")).join("corpus");
    let mut count = 0;
    let mut met: BTreeMap<(u8, u32), BTreeSet<u32>> = BTreeMap::new();
    let mut with_clearance = BTreeSet::new();
    for entry in std::fs::read_dir(folder).unwrap() {
        let path = entry.unwrap().path();
        let Made {
            call,
            version,
            clearance,
            answer,
        } = one(&std::fs::read(&path).unwrap());
        let name = path.file_name().unwrap().to_str().unwrap();
        if let Some(named) = by_name(name) {
            assert_eq!((call, answer.number), named, "{name}");
        }
        if name.contains("-version-2-") {
            assert_eq!(version, 2, "{name}");
        }
        if name.contains("-clearance-") {
            assert!(clearance > 0, "{name}");
        }
        if clearance > 0 {
            with_clearance.insert((call, answer.number));
        }
        met.entry((call, version))
            .or_default()
            .insert(answer.number);
        count += 1;
    }
    assert!(count > 50);
    // report's 16 comes behind its 14
    let judged = BTreeSet::from([(2, 0), (2, 14), (2, 16), (3, 0), (3, 15)]);
    assert!(with_clearance.is_superset(&judged), "{with_clearance:?}");
    for call in 0..5 {
        for version in [1, 2] {
            let met = met.remove(&(call, version)).unwrap_or_default();
            assert_eq!(
                met,
                answers(call, version),
                "call {call}, version {version}"
            );
        }
    }
}

#[test]
fn seeds_and_mutations() {
    let mut random = Random::new(70);
    for _ in 0..30_000 {
        let mut input = seed(&mut random);
        one(&input);
        mutate(&mut random, &mut input);
        one(&input);
    }
}
