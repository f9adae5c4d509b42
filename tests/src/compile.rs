//! Programs that a test builds and runs.

use std::path::Path;
use std::process::Command;

/// What a command prints; it ends with status 0.
pub fn printed(command: &mut Command) -> String {
    let ran = command.output().expect("it runs");
    assert!(
        ran.status.success(),
        "{command:?}: {}",
        String::from_utf8_lossy(&ran.stderr)
    );
    String::from_utf8(ran.stdout).unwrap()
}

/// What a program prints: its source goes to the compiler, which puts it beside the others under this folder and name.
pub fn built(compiler: &mut Command, folder: &str, name: &str) -> String {
    let program = Path::new(folder).join(name);
    printed(compiler.arg("-o").arg(&program));
    printed(&mut Command::new(program))
}
