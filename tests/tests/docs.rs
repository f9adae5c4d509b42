//! What the documents name is there.

#[path = "docs/definitions.rs"]
mod definitions;
#[path = "docs/specs.rs"]
mod specs;

use antenna_tests::root;
use std::path::{Path, PathBuf};

/// Words that look like paths of the repository: in backquotes, or the target of a link, which begins where the document is. Patterns and what is built are left out.
fn paths(document: &str, text: &str) -> Vec<PathBuf> {
    let mut found = Vec::new();
    for quoted in text.split('`').skip(1).step_by(2) {
        let word = quoted.split_whitespace().next().unwrap_or("");
        let known = [
            "crates/",
            "include/",
            "examples/",
            "tests/",
            "docs/",
            "command/",
            "bench/",
        ];
        let pattern = word.contains("NAME") || word.contains("/target/");
        if known.iter().any(|start| word.starts_with(start)) && !pattern {
            found.push(word.into());
        }
    }
    for link in text.split("](").skip(1) {
        let target = link.split(')').next().unwrap_or("");
        if !target.contains("://") {
            found.push(Path::new(document).with_file_name(target));
        }
    }
    found
}

#[test]
fn named_files_are_there() {
    let mut checked = 0;
    for document in [
        "README.md",
        "docs/METHOD.md",
        "docs/TRUST.md",
        "docs/DECISIONS.md",
        "docs/INTERFACE.md",
        "docs/CONTRIBUTING.md",
    ] {
        let text = std::fs::read_to_string(root().join(document)).expect(document);
        for path in paths(document, &text) {
            let there = root().join(&path).exists();
            assert!(there, "{document} names {}", path.display());
            checked += 1;
        }
    }
    assert!(checked > 20);
}

/// The rows of a document's table whose first column has this head, each in its cells.
fn table(document: &str, head: &str) -> Vec<Vec<String>> {
    let text = std::fs::read_to_string(root().join(document)).unwrap();
    let start = format!("| {head} |");
    let table = text.lines().skip_while(|line| !line.starts_with(&start));
    let rows = table.skip(2).take_while(|line| line.starts_with('|'));
    let cells = |row: &str| {
        let row = row.trim_matches('|');
        row.split(" | ").map(|cell| cell.trim().into()).collect()
    };
    let rows: Vec<Vec<String>> = rows.map(cells).collect();
    assert!(!rows.is_empty(), "{document}, {head}");
    rows
}

fn table_of_trust(head: &str) -> Vec<Vec<String>> {
    table("docs/TRUST.md", head)
}

/// The words in backquotes, each with what stands before it.
fn quoted(cell: &str) -> Vec<(&str, &str)> {
    let parts: Vec<&str> = cell.split('`').collect();
    parts
        .chunks_exact(2)
        .map(|pair| (pair[0], pair[1]))
        .collect()
}

fn declares(file: &Path, name: &str) -> bool {
    let text = std::fs::read_to_string(file).unwrap();
    ["", "record ", "data "]
        .iter()
        .any(|kind| text.contains(&format!("pub {kind}{name} ")))
}

/// The theorems of a cell, each behind its file: a name is declared in the next file named, whose folder may be that of the file before.
fn theorems(cell: &str) -> Vec<(String, String)> {
    let mut found = Vec::new();
    let mut folder = "";
    let mut names = Vec::new();
    for (_, word) in quoted(cell) {
        if !word.ends_with(".antt") {
            names.push(word);
            continue;
        }
        let file = match word.rsplit_once('/') {
            Some((start, _)) => {
                folder = start;
                word.to_string()
            }
            None => format!("{folder}/{word}"),
        };
        found.extend(names.drain(..).map(|name| (file.clone(), name.to_string())));
    }
    found
}

/// A theorem that METHOD.md or TRUST.md names in a file is declared there.
#[test]
fn theorems_are_there() {
    let mut checked = 0;
    let method = table("docs/METHOD.md", "in words");
    for row in [method, table_of_trust("statement")].concat() {
        for (file, name) in theorems(&row[1]) {
            assert!(declares(&root().join(&file), &name), "{name} in {file}");
            checked += 1;
        }
    }
    assert!(checked > 25);
}

/// `specs/Excluded.antt` of each crate that has one.
fn excluded() -> Vec<PathBuf> {
    let crates = std::fs::read_dir(root().join("crates")).unwrap();
    crates
        .map(|folder| folder.unwrap().path().join("specs/Excluded.antt"))
        .filter(|file| file.exists())
        .collect()
}

/// What TRUST.md sets against a wrong program is there: an edit in the crate named before it; a theorem in some crate's
/// `Excluded.antt`, and in the file named behind it where one is.
#[test]
fn refused_programs() {
    let mut checked = 0;
    let files = excluded();
    for row in table_of_trust("wrong program") {
        let mut by = "";
        let mut theorems = Vec::new();
        for (before, name) in quoted(&row[1]) {
            let word = before.trim_matches([' ', ',', ';']);
            if !word.is_empty() {
                by = word;
            }
            match by {
                "theorem" => {
                    assert!(files.iter().any(|file| declares(file, name)), "{name}");
                    theorems.push(name);
                }
                "in" => {
                    for theorem in theorems.drain(..) {
                        assert!(declares(&root().join(name), theorem), "{theorem} in {name}");
                    }
                }
                _ => {
                    let edit = root().join(format!("crates/{by}/must-fail/{name}.edit"));
                    assert!(edit.exists(), "{}", edit.display());
                }
            }
            checked += 1;
        }
    }
    assert!(checked > 20);
}
