//! `antenna def`, run whole: nets of DEF texts to net files.

#[path = "def_command/bar.rs"]
mod bar;
#[path = "def_command/beside.rs"]
mod beside;
#[path = "def_command/case.rs"]
mod case;
#[path = "def_command/clearance.rs"]
mod clearance;
#[path = "def_command/damaged.rs"]
mod damaged;
#[path = "def_command/folder.rs"]
mod folder;
#[path = "def_command/forms.rs"]
mod forms;
#[path = "def_command/grid.rs"]
mod grid;
#[path = "def_command/joined.rs"]
mod joined;
#[path = "def_command/meets.rs"]
mod meets;
#[path = "def_command/metal.rs"]
mod metal;
#[path = "def_command/notes.rs"]
mod notes;
#[path = "def_command/pins.rs"]
mod pins;
#[path = "def_command/random.rs"]
mod random;
#[path = "def_command/random_pins.rs"]
mod random_pins;
#[path = "def_command/router.rs"]
mod router;

use antenna_tests::library;
use antenna_tests::root;
use std::fs;
use std::io::Write;
use std::path::PathBuf;
use std::process::{Command, Stdio};

struct Ran {
    text: String,
    errors: String,
    status: Option<i32>,
}

/// The command, in the folder of the samples.
fn antenna(words: &[&str], input: &[u8]) -> Ran {
    let mut child = Command::new(root().join("command/target/release/antenna"))
        .arg("def")
        .args(words)
        .current_dir(root().join("examples/def"))
        .stdin(Stdio::piped())
        .stdout(Stdio::piped())
        .stderr(Stdio::piped())
        .spawn()
        .expect("the command is built");
    let _ = child.stdin.take().unwrap().write_all(input);
    let output = child.wait_with_output().unwrap();
    Ran {
        text: String::from_utf8_lossy(&output.stdout).into_owned(),
        errors: String::from_utf8_lossy(&output.stderr).into_owned(),
        status: output.status.code(),
    }
}

/// A folder of the tests' own that is not there yet.
fn folder_of(name: &str) -> PathBuf {
    let path = PathBuf::from(env!("CARGO_TARGET_TMPDIR")).join("def");
    fs::create_dir_all(&path).unwrap();
    let path = path.join(name);
    let _ = fs::remove_dir_all(&path);
    path
}

/// The names of a folder's files, sorted.
fn names_in(folder: &PathBuf) -> Vec<String> {
    let names = fs::read_dir(folder).unwrap();
    let mut names: Vec<String> = names
        .map(|entry| entry.unwrap().file_name().into_string().unwrap())
        .collect();
    names.sort();
    names
}

/// The net files of a text in the library's own form, as the library alone reads them.
fn read_by_library(text: &[u8]) -> Vec<Vec<u8>> {
    let mut files = Vec::new();
    let mut place = 0;
    while !text[place..].trim_ascii().is_empty() {
        let mut out = vec![0; 8192];
        let answer = library::def(text, place, &[], &[], &mut out);
        assert_eq!(
            answer.number,
            library::DONE,
            "net {}: {answer:?}",
            files.len()
        );
        out.truncate(answer.count as usize);
        files.push(out);
        place = answer.place as usize;
    }
    files
}
