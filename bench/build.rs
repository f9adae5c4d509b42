//! Copies of the libraries to be timed, their code at four places of a cache line, their calls renamed `LIBRARY_PLACE_CALL`: a loop
//! of five instructions takes one cycle or two, depending on where the linker puts it, so each copy is timed and the fastest counts.
//!
//! `now` is the proved library of this tree, `plain` the plain Rust program behind the same calls (bench/plain.rs), and `before`, if
//! the variable ANTENNA_BEFORE names a folder, the proved library of an earlier commit (bench/run).

use std::fmt::Write;
use std::fs::{read_to_string, write};
use std::path::{Path, PathBuf};
use std::process::Command;

const PLACES: [usize; 4] = [0, 16, 32, 48];

fn run(command: &mut Command) -> String {
    let ran = command.output().expect("it runs");
    let said = String::from_utf8_lossy(&ran.stderr);
    assert!(ran.status.success(), "{command:?}: {said}");
    String::from_utf8(ran.stdout).unwrap()
}

/// A library to copy: its name, its file, and how its exports begin.
struct Library<'a> {
    name: &'a str,
    archive: PathBuf,
    prefix: &'a str,
}

/// What a library exports, without the prefix.
fn calls(library: &Library) -> Vec<String> {
    let mut nm = Command::new("nm");
    nm.args(["--defined-only", "--extern-only", "--format=just-symbols"]);
    let symbols = run(nm.arg(&library.archive));
    let calls = symbols
        .lines()
        .filter_map(|s| s.strip_prefix(library.prefix));
    calls.map(String::from).collect()
}

/// One copy, as an object file to link; only its calls can be seen.
fn copy(library: &Library, place: usize, out: &Path) {
    let Library {
        name,
        archive,
        prefix,
    } = library;
    let script = out.join(format!("{name}_{place}.ld"));
    let text = format!("SECTIONS {{ .text : {{ . = . + {place}; *(.text .text.*) }} }}\n");
    write(&script, text).unwrap();
    let object = out.join(format!("{name}_{place}.o"));
    let mut ld = Command::new("ld");
    ld.arg("-r").arg("-T").arg(script).arg("-o").arg(&object);
    let mut objcopy = Command::new("objcopy");
    objcopy.args(["--set-section-alignment", ".text=64"]);
    for call in calls(library) {
        ld.args(["-u", &format!("{prefix}{call}")]);
        let renamed = format!("{name}_{place}_{call}");
        objcopy.args(["--redefine-sym", &format!("{prefix}{call}={renamed}")]);
        objcopy.args(["--keep-global-symbol", &renamed]);
    }
    run(ld.arg(archive));
    run(objcopy.arg(&object));
    println!("cargo:rustc-link-arg-bins={}", object.display());
}

/// The copies of a library: what is declared for them, and the rows of the table of addresses.
fn copies(library: &Library, out: &Path) -> (String, String) {
    let (mut declared, mut rows) = (String::new(), String::new());
    for place in PLACES {
        copy(library, place, out);
    }
    for call in calls(library) {
        let names = PLACES.map(|place| format!("{}_{place}_{call}", library.name));
        for name in &names {
            writeln!(declared, "    fn {name}();").unwrap();
        }
        let names = names.join(", ");
        writeln!(rows, "    (\"{}\", \"{call}\", [{names}]),", library.name).unwrap();
    }
    (declared, rows)
}

/// The plain program, compiled as far as rustc can.
fn plain(root: &Path, out: &Path) -> PathBuf {
    let archive = out.join("libplain.a");
    let mut rustc = Command::new(std::env::var("RUSTC").unwrap());
    rustc.args(["--edition", "2021", "--crate-type", "staticlib"]);
    for option in ["opt-level=3", "lto=fat", "codegen-units=1", "panic=abort"] {
        rustc.args(["-C", option]);
    }
    rustc.arg("-L").arg(root.join("target/staticlib"));
    run(rustc
        .arg(root.join("bench/plain.rs"))
        .arg("-o")
        .arg(&archive));
    archive
}

fn main() {
    let root = std::env::var("CARGO_MANIFEST_DIR").unwrap();
    let out = std::env::var("OUT_DIR").unwrap();
    let (root, out) = (Path::new(&root).join(".."), Path::new(&out));
    let archive = root.join("target/staticlib/libantenna.a");
    let folder = archive.parent().unwrap().display();
    println!("cargo:rustc-link-search=native={folder}");
    for path in [
        "target/staticlib/libantenna.a",
        "bench/plain.rs",
        "tests/src/plain",
        "tests/src/answer.rs",
        "include/antenna.rs",
    ] {
        println!("cargo:rerun-if-changed={}", root.join(path).display());
    }
    println!("cargo:rerun-if-env-changed=ANTENNA_BEFORE");
    let mut libraries = vec![
        Library {
            name: "now",
            archive,
            prefix: "antenna_",
        },
        Library {
            name: "plain",
            archive: plain(&root, out),
            prefix: "plain_",
        },
    ];
    let mut version = String::from("0 0");
    if let Ok(folder) = std::env::var("ANTENNA_BEFORE") {
        let folder = Path::new(&folder);
        println!("cargo:rerun-if-changed={}", folder.display());
        libraries.push(Library {
            name: "before",
            archive: folder.join("libantenna.a"),
            prefix: "antenna_",
        });
        version = read_to_string(folder.join("version")).unwrap();
    }
    let (mut declared, mut rows) = (String::new(), String::new());
    for library in &libraries {
        let (d, r) = copies(library, out);
        declared += &d;
        rows += &r;
    }
    let (major, minor) = version.trim().split_once(' ').unwrap();
    let text = format!(
        "extern \"C\" {{
{declared}}}

/// Library, call, and its address in each copy.
pub static ADDRESSES: &[(&str, &str, [Address; {}])] = &[
{rows}];

/// The version of the earlier commit's header.
pub const BEFORE_VERSION: (u32, u32) = ({major}, {minor});
",
        PLACES.len()
    );
    write(out.join("addresses.rs"), text).unwrap();
}
