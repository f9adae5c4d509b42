//! The bar on standard error: only where that is a terminal, and never in the way of a line.

use super::antenna;
use antenna_tests::root;
use std::process::{Command, Stdio};

/// What a terminal gets as standard error (script, of Debian's bsdutils, is the terminal).
fn terminal(file: &str) -> String {
    let antenna = root().join("command/target/release/antenna");
    let run = format!("{} def {file} >/dev/null", antenna.display());
    let ran = Command::new("script")
        .args(["--quiet", "--return", "--command", &run, "/dev/null"])
        .current_dir(root().join("examples/def"))
        .stdin(Stdio::null())
        .output()
        .unwrap();
    String::from_utf8(ran.stdout).unwrap()
}

#[test]
fn bar_on_a_terminal() {
    const CLEARED: &str = "\r\x1b[K";
    for (file, nets, named) in [("own-form.def", 4, 0), ("router.def", 253, 30)] {
        let written = terminal(file);
        let begin = format!("\r[{}] 0 of {nets} nets", ".".repeat(40));
        assert!(written.starts_with(&begin), "{written:?}");
        let lines: Vec<&str> = written.split("\r\n").collect();
        assert_eq!(lines.len(), named + 1);
        for line in &lines[..named] {
            // whatever was drawn is cleared before the line begins
            let line = line.rsplit(CLEARED).next().unwrap();
            assert!(line.starts_with("antenna: router.def:"), "{line:?}");
        }
        let last = lines[named];
        assert!(last.is_empty() || last.ends_with(CLEARED), "{last:?}");
    }
}

#[test]
fn no_bar_elsewhere() {
    assert_eq!(antenna(&["own-form.def"], &[]).errors, "");
    let errors = antenna(&["router.def"], &[]).errors;
    assert!(!errors.contains(['\r', '\x1b']), "{errors:?}");
}
