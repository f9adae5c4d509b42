//! C and C++ programs built with gcc and g++ and linked with the library.

use antenna_tests::compile::built;
use antenna_tests::root;
use std::path::Path;
use std::process::Command;

const FOLDER: &str = env!("CARGO_TARGET_TMPDIR");

/// What a program prints, built from its source without a warning.
fn printed(compiler: &str, options: &[&str], source: &Path) -> String {
    let name = source.file_stem().unwrap().to_str().unwrap();
    let mut command = Command::new(compiler);
    command
        .args(options)
        .args(["-Wall", "-Wextra", "-Werror", "-pedantic", "-I"])
        .arg(root().join("include"))
        .arg(source)
        .arg(root().join("target/staticlib/libantenna.a"));
    built(&mut command, FOLDER, name)
}

/// An example prints what its .txt file holds.
fn prints(name: &str) {
    let options = ["-std=c99", "-g", "-O1", "-fsanitize=address,undefined"];
    let source = root().join(format!("examples/{name}.c"));
    let expected = std::fs::read_to_string(source.with_extension("txt")).unwrap();
    assert_eq!(printed("gcc", &options, &source), expected);
}

#[test]
fn caller() {
    prints("caller");
}

#[test]
fn editor() {
    prints("editor");
}

/// What a program without a C library has to bring.
#[test]
fn needs_from_outside() {
    let ran = Command::new("nm")
        .args(["--undefined-only", "--format=just-symbols"])
        .arg(root().join("target/staticlib/libantenna.a"))
        .output()
        .unwrap();
    assert!(ran.status.success());
    let text = String::from_utf8(ran.stdout).unwrap();
    let mut names: Vec<&str> = text.lines().filter(|line| !line.is_empty()).collect();
    // a member's name stands before its symbols
    names.retain(|name| !name.ends_with(':'));
    names.sort();
    names.dedup();
    assert_eq!(names, ["memcpy", "memset"]);
}

/// The header is C++ too, and its calls keep their C names there.
#[test]
fn header_in_cpp() {
    let source = Path::new(FOLDER).join("header.cpp");
    let text = "#include <antenna.h>\nint main() { return antenna_read(nullptr, 0).number == ANTENNA_REFUSED_HEAD ? 0 : 1; }\n";
    std::fs::write(&source, text).unwrap();
    assert_eq!(printed("g++", &["-std=c++11"], &source), "");
}

/// A call as headers before 0.6 had it, without a clearance, is not compiled: its parameters do not move to others' places unseen.
#[test]
fn calls_without_a_clearance() {
    for (name, call) in [
        (
            "report",
            "antenna_report(1, 13, file, 41, file, 0, out, 24)",
        ),
        ("repair", "antenna_repair(1, 13, file, 41, out, 24)"),
    ] {
        for (given, compiled) in [(call.into(), false), (call.replace("13,", "13, 0,"), true)] {
            let source = Path::new(FOLDER).join(format!("without-{name}-{compiled}.c"));
            let text = format!(
                "#include <antenna.h>\nantenna_answer call(const uint8_t *file, uint8_t *out) {{ return {given}; }}\n"
            );
            std::fs::write(&source, text).unwrap();
            let ran = Command::new("gcc")
                .args(["-fsyntax-only", "-I"])
                .arg(root().join("include"))
                .arg(&source)
                .output()
                .unwrap();
            let told = String::from_utf8_lossy(&ran.stderr);
            assert_eq!(ran.status.success(), compiled, "{given}: {told}");
            assert_eq!(told.contains("too few arguments"), !compiled, "{told}");
        }
    }
}
