//! The definitions that docs/TRUST.md asks to read are all that the promises rest on, and nothing else.

use crate::specs::{Definition, Specs};
use crate::{table_of_trust, theorems};
use std::collections::{BTreeMap, BTreeSet};

const CALLS: [&str; 5] = [
    "antenna_read",
    "antenna_write",
    "antenna_report",
    "antenna_repair",
    "antenna_def",
];

/// The cells of a table, behind the first of each row.
type Rows = BTreeMap<String, Vec<String>>;

/// What should stand is printed, as a failed test shows it.
fn compare(said: Rows, expected: Rows) {
    for (first, cells) in &expected {
        println!("| {first} | {} |", cells.join(" | "));
    }
    for first in said.keys().chain(expected.keys()) {
        assert_eq!(said.get(first), expected.get(first), "{first}");
    }
}

/// Each file to read has the lines that TRUST.md says, in all and for each call, and no definition besides.
#[test]
fn definitions_to_read() {
    let mut specs = Specs::default();
    let promises = specs.of_promises();
    assert_eq!(promises.len(), CALLS.len());
    let all: BTreeSet<Definition> = promises.values().flatten().cloned().collect();
    for one in &all {
        let name = specs.name(one);
        assert_eq!(specs.hidden(one), [], "{name} hides a definition");
    }
    let mut lines = |of: &dyn Fn(&Definition) -> bool| -> Vec<String> {
        let mut count = |set: &BTreeSet<Definition>| specs.lines(set.iter().filter(|one| of(one)));
        let mut cells = vec![count(&all)];
        cells.extend(CALLS.map(|call| count(&promises[call])));
        cells.iter().map(|cell| cell.to_string()).collect()
    };
    let files: BTreeSet<&String> = all.iter().map(|one| &one.0).collect();
    let mut expected = Rows::from([("together".into(), lines(&|_| true))]);
    for &file in &files {
        expected.insert(format!("`{file}`"), lines(&|one| one.0 == *file));
    }
    let rows = table_of_trust("file").into_iter();
    let said = rows.map(|row| (row[0].clone(), row[1..7].to_vec()));
    compare(said.collect(), expected);
    for file in files {
        for one in specs.all_of(file) {
            let name = specs.name(&one);
            assert!(all.contains(&one), "no promise uses {name} in {file}");
        }
    }
}

/// What the listed theorems use besides stands in TRUST.md's second table. Left out are the rows that say why the passes are right.
#[test]
fn definitions_of_theorems() {
    let mut specs = Specs::default();
    let all: BTreeSet<Definition> = specs.of_promises().into_values().flatten().collect();
    let mut besides = BTreeSet::new();
    let rows = table_of_trust("statement").into_iter();
    for row in rows.filter(|row| !row[0].starts_with("why")) {
        for (file, name) in theorems(&row[1]) {
            besides.extend(specs.of_theorem(&file, &name));
        }
    }
    compare_besides(&mut specs, "used besides in", besides.difference(&all));
}

/// What the contract of the function that takes one wire of report uses besides.
#[test]
fn definitions_of_one_wire() {
    let mut specs = Specs::default();
    let all: BTreeSet<Definition> = specs.of_promises().into_values().flatten().collect();
    let besides = specs.of_function("crates/records/src/wire.rt", "take_wire");
    compare_besides(&mut specs, "`take_wire` uses in", besides.difference(&all));
}

/// A table of TRUST.md has these definitions, by their files.
fn compare_besides<'a>(
    specs: &mut Specs,
    head: &str,
    besides: impl Iterator<Item = &'a Definition>,
) {
    let mut used: BTreeMap<String, Vec<String>> = BTreeMap::new();
    for one in besides {
        let names = used.entry(one.0.clone()).or_default();
        names.push(format!("`{}`", specs.name(one)));
    }
    let mut expected = Rows::new();
    for (file, names) in used {
        let whole = names.len() == specs.all_of(&file).len();
        let cell = if whole && 1 < names.len() {
            "all of it".into()
        } else {
            names.join(", ")
        };
        expected.insert(format!("`{file}`"), vec![cell]);
    }
    let rows = table_of_trust(head).into_iter();
    let said = rows.map(|row| (row[0].clone(), vec![row[1].clone()]));
    compare(said.collect(), expected);
}
