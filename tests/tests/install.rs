//! make install into a folder of its own, and a C program built against it through pkg-config.

use antenna_tests::compile::printed;
use antenna_tests::root;
use std::path::Path;
use std::process::Command;

#[test]
fn installed_library_builds_the_editor() {
    let prefix = Path::new(env!("CARGO_TARGET_TMPDIR")).join("installed");
    let _ = std::fs::remove_dir_all(&prefix);
    printed(
        Command::new("make")
            .arg("install")
            .arg(format!("PREFIX={}", prefix.display()))
            .current_dir(root()),
    );
    let flags = printed(
        Command::new("pkg-config")
            .args(["--cflags", "--libs", "antenna"])
            .env("PKG_CONFIG_PATH", prefix.join("lib/pkgconfig")),
    );
    let program = prefix.join("editor");
    printed(
        Command::new("gcc")
            .args(["-std=c99", "-Wall", "-Wextra", "-Werror", "-o"])
            .arg(&program)
            .arg(root().join("examples/editor.c"))
            .args(flags.split_whitespace()),
    );
    let expected = std::fs::read_to_string(root().join("examples/editor.txt")).unwrap();
    assert_eq!(printed(&mut Command::new(program)), expected);
    for page in ["man1/antenna.1", "man3/antenna.3"] {
        assert!(prefix.join("share/man").join(page).exists());
    }
    printed(Command::new(prefix.join("bin/antenna")).arg("--help"));
    for program in ["antenna-report", "antenna-repair"] {
        let written = printed(&mut Command::new(prefix.join("bin").join(program)));
        assert_eq!(written, "refused 1 0\n");
    }
}
