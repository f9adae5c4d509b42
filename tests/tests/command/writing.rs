//! A write that fails is reported; a reader that has gone away is no error.

use super::{antenna, command};
use std::fs::File;
use std::io::Read;
use std::process::Stdio;

/// Each command, and what it writes when it may.
const COMMANDS: [&[&str]; 11] = [
    &["--help"],
    &["--version"],
    &["report", "clock-256.net", "--limit", "13"],
    &["repair", "clock-256.net", "--limit", "13"],
    &["check", "j.net", "--limit", "80", "--jumpers", "/dev/null"],
    &["def", "../def/own-form.def"],
    &["def", "../def/own-form.def", "--text"],
    &["draw", "clock-256.net", "--limit", "13"],
    &["pack", "clock-256.net"],
    &["unpack", "clock-256.net"],
    // few bytes and no end of a line
    &["pack", "a.net"],
];

#[test]
fn standard_output_that_is_full() {
    for words in COMMANDS {
        let full = File::options().write(true).open("/dev/full").unwrap();
        let ran = command(words).stdout(full).output().unwrap();
        let errors = String::from_utf8(ran.stderr).unwrap();
        assert_eq!(ran.status.code(), Some(2), "{words:?}: {errors}");
        assert!(errors.starts_with("antenna: standard output: "), "{errors}");
    }
}

#[test]
fn files_that_cannot_be_written() {
    for words in &COMMANDS[7..] {
        for file in ["/dev/full", "no/such/folder/file"] {
            let ran = antenna(&[words, &["-o", file][..]].concat(), &[]);
            assert_eq!(ran.status, 2, "{words:?}: {}", ran.errors);
            assert!(
                ran.errors.starts_with(&format!("antenna: {file}: ")),
                "{}",
                ran.errors
            );
        }
    }
}

/// The status is that of a reader who stays.
#[test]
fn reader_that_has_gone_away() {
    for words in COMMANDS {
        let mut child = command(words)
            .stdout(Stdio::piped())
            .stderr(Stdio::piped())
            .spawn()
            .unwrap();
        drop(child.stdout.take());
        let mut errors = String::new();
        child
            .stderr
            .take()
            .unwrap()
            .read_to_string(&mut errors)
            .unwrap();
        let status = child.wait().unwrap().code();
        assert_eq!(errors, "", "{words:?}");
        assert_eq!(status, Some(antenna(words, &[]).status), "{words:?}");
    }
}

#[test]
fn written_files_are_what_is_printed() {
    for words in &COMMANDS[7..] {
        let file = super::stored("written", &[]);
        let written = antenna(&[words, &["--output", &file][..]].concat(), &[]);
        let printed = antenna(words, &[]);
        assert_eq!(written.out, []);
        assert_eq!(written.status, printed.status);
        assert!(std::fs::read(file).unwrap() == printed.out);
    }
}
