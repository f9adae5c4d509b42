//! The scripts of the gate: the Rattle kit that it takes, and the table of seconds.

use antenna_tests::root;
use std::fs::{create_dir_all, read_to_string, set_permissions, write, Permissions};
use std::io::Write;
use std::os::unix::fs::PermissionsExt;
use std::path::Path;
use std::process::{Command, Output, Stdio};

/// tests/tools, where rt says that it is this kit.
fn tools_with(folder: &str, version: &str, kit: Option<&str>) -> Output {
    let folder = Path::new(env!("CARGO_TARGET_TMPDIR")).join(folder);
    create_dir_all(&folder).unwrap();
    let rt = folder.join("rt");
    write(&rt, format!("#!/bin/sh\necho '{version}'\n")).unwrap();
    set_permissions(&rt, Permissions::from_mode(0o755)).unwrap();
    let path = format!("{}:{}", folder.display(), std::env::var("PATH").unwrap());
    let mut tools = Command::new(root().join("tests/tools"));
    tools.env("PATH", path).env_remove("KIT");
    if let Some(kit) = kit {
        tools.env("KIT", kit);
    }
    tools.output().unwrap()
}

#[test]
fn the_pinned_kit_alone_is_taken() {
    let pinned = read_to_string(root().join("KIT")).unwrap();
    let taken = tools_with("pinned", pinned.trim(), None);
    assert!(taken.status.success() && taken.stderr.is_empty());
    let stopped = tools_with("another", "another kit", None);
    assert!(!stopped.status.success());
    let said = String::from_utf8(stopped.stderr).unwrap();
    for words in [pinned.trim(), "another kit", "KIT=any", "rt version > KIT"] {
        assert!(said.contains(words), "{said}");
    }
    let any = tools_with("any", "another kit", Some("any"));
    assert!(any.status.success());
    assert_eq!(String::from_utf8(any.stderr).unwrap(), said);
}

#[test]
fn seconds_of_proofs_and_edits() {
    let printed = "\
logic=proved functions=4 (12 s)
rt: laws proved (1 s)
rt: net proved (41 s)
rt: lists proved (unchanged since it was last proved)
rt: report NOT PROVED (exit 1, 7 s)
rt: must-fail net/flags: refused, as it must be (first at proofs/read/Proof.antt:3:4; 39 s)
rt: must-fail net/order: NOT REFUSED: the crate is still proved with this edit (40 s)
rt: must-fail net/bad: BAD EDIT: an 'old:' text is not in src/lib.rt
rt: repair ran as nobody, and wrote what its file 'stdout' has (2 s)
3 passed, 2 failed
";
    let mut seconds = Command::new(root().join("tests/seconds"))
        .stdin(Stdio::piped())
        .stdout(Stdio::piped())
        .spawn()
        .unwrap();
    let mut stdin = seconds.stdin.take().unwrap();
    stdin.write_all(printed.as_bytes()).unwrap();
    drop(stdin);
    let table = String::from_utf8(seconds.wait_with_output().unwrap().stdout).unwrap();
    let rows: Vec<Vec<&str>> = table
        .lines()
        .skip(1)
        .map(|row| row.split_whitespace().collect())
        .collect();
    let expected = [
        ["laws", "1", "0", "0"],
        ["net", "41", "2", "79"],
        ["report", "7", "0", "0"],
        ["repair", "2", "0", "0"],
        ["all", "51", "2", "79"],
    ];
    assert_eq!(rows, expected);
}
