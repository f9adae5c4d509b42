//! The header, the Rust binding, the library's exports, the pkg-config file and docs/INTERFACE.md say the same.

use antenna_tests::compile::{built, printed};
use antenna_tests::library::{VERSION_MAJOR, VERSION_MINOR};
use antenna_tests::root;
use std::collections::{BTreeMap, BTreeSet};
use std::path::Path;
use std::process::Command;
use std::sync::OnceLock;

const FOLDER: &str = env!("CARGO_TARGET_TMPDIR");

fn text(path: &str) -> String {
    std::fs::read_to_string(root().join(path)).expect(path)
}

/// The words that begin so, each once.
fn words(text: &str, start: &str) -> BTreeSet<String> {
    text.split(|c: char| !c.is_ascii_alphanumeric() && c != '_')
        .filter(|word| word.starts_with(start))
        .map(String::from)
        .collect()
}

/// Lines of a name and a number.
fn numbers(lines: &str) -> BTreeMap<String, u64> {
    lines
        .lines()
        .map(|line| {
            let (name, number) = line.split_once(' ').unwrap();
            (name.into(), number.parse().unwrap())
        })
        .collect()
}

/// Every constant of the header as C has it, and the layout of an answer. Built once.
fn header() -> &'static BTreeMap<String, u64> {
    static HEADER: OnceLock<BTreeMap<String, u64>> = OnceLock::new();
    HEADER.get_or_init(build_header)
}

fn build_header() -> BTreeMap<String, u64> {
    let mut program = String::from("#include <stdio.h>\n#include <antenna.h>\n#define SHOW(name, value) printf(\"%s %llu\\n\", name, (unsigned long long)(value))\nint main(void) {\n");
    for name in words(&text("include/antenna.h"), "ANTENNA_") {
        if name != "ANTENNA_H" {
            program += &format!("SHOW(\"{}\", {name});\n", &name["ANTENNA_".len()..]);
        }
    }
    program += "SHOW(\"answer\", sizeof(antenna_answer));\n";
    for field in ["number", "place", "count"] {
        program += &format!("SHOW(\"{field}\", offsetof(antenna_answer, {field}));\n");
    }
    program += "return 0; }\n";
    let source = Path::new(FOLDER).join("constants.c");
    std::fs::write(&source, program).unwrap();
    let mut gcc = Command::new("gcc");
    gcc.arg("-I").arg(root().join("include")).arg(source);
    numbers(&built(&mut gcc, FOLDER, "constants_of_header"))
}

/// Every constant of the binding as Rust has it, and the layout of an answer.
fn binding() -> BTreeMap<String, u64> {
    let path = root().join("include/antenna.rs");
    let mut program = format!(
        "#[path = {:?}]\nmod antenna;\nuse antenna::Answer;\nfn main() {{\n",
        path.canonicalize().unwrap()
    );
    for line in text("include/antenna.rs").lines() {
        if let Some(rest) = line.strip_prefix("pub const ") {
            let name = rest.split(':').next().unwrap();
            program += &format!("println!(\"{name} {{}}\", antenna::{name});\n");
        }
    }
    program += "println!(\"answer {}\", std::mem::size_of::<Answer>());\n";
    for field in ["number", "place", "count"] {
        program += &format!("println!(\"{field} {{}}\", std::mem::offset_of!(Answer, {field}));\n");
    }
    program += "}\n";
    let source = Path::new(FOLDER).join("constants.rs");
    std::fs::write(&source, program).unwrap();
    let mut rustc = Command::new("rustc");
    rustc
        .args(["--edition", "2021", "-L"])
        .arg(root().join("target/staticlib"))
        .arg(source);
    numbers(&built(&mut rustc, FOLDER, "constants_of_binding"))
}

#[test]
fn constants_and_layout() {
    let header = header();
    assert_eq!(*header, binding());
    assert!(header.len() > 30, "{header:?}");
}

/// The numbers of the table of refusals, by name.
#[test]
fn refusals_of_the_document() {
    let header = header();
    let mut rows = 0;
    for row in text("docs/INTERFACE.md").lines() {
        let cells: Vec<&str> = row.split(" | ").collect();
        if let Some(name) = cells.get(1).and_then(|c| c.strip_prefix("`ANTENNA_")) {
            let number: u64 = cells[0].trim_matches(['|', ' ']).parse().unwrap();
            assert_eq!(
                header.get(name.trim_end_matches('`')),
                Some(&number),
                "{row}"
            );
            rows += 1;
        }
    }
    let refusals = header.keys().filter(|name| name.starts_with("REFUSED_"));
    assert_eq!(rows, refusals.count());
}

/// A number in brackets behind a name of the header is its value, in the documents too.
#[test]
fn values_in_the_documents() {
    let header = header();
    let mut checked = 0;
    for document in ["docs/INTERFACE.md", "docs/man/antenna.3"] {
        for part in text(document).split("ANTENNA_").skip(1) {
            let end = part.find(|c: char| !c.is_ascii_uppercase() && c != '_');
            let (name, rest) = part.split_at(end.unwrap_or(part.len()));
            let value = header.get(name);
            assert!(value.is_some(), "{document} names ANTENNA_{name}");
            let rest = rest.trim_start_matches(['`', ' ', '\n']);
            if let Some(rest) = rest.strip_prefix('(') {
                let said = rest.split(')').next().unwrap().replace(',', "");
                assert_eq!(value, said.parse().ok().as_ref(), "{document}: {name}");
                checked += 1;
            }
        }
    }
    assert_eq!(checked, 14);
}

/// The calls: name, and each parameter's name and type as Rust writes it.
fn calls_of_header() -> BTreeMap<String, Vec<String>> {
    let text = text("include/antenna.h");
    let calls = text.split("\nantenna_answer ").skip(1);
    calls
        .map(|call| {
            let (name, rest) = call.split_once('(').unwrap();
            let parameters = rest.split(')').next().unwrap().split(',');
            let rust = |parameter: &str| {
                let at = parameter.rfind([' ', '*']).unwrap() + 1;
                let of = match parameter[..at].trim() {
                    "const uint8_t *" => "*const u8",
                    "uint8_t *" => "*mut u8",
                    "size_t" => "usize",
                    "uint32_t" => "u32",
                    "uint16_t" => "u16",
                    other => panic!("{name}: {other}"),
                };
                format!("{}: {of}", &parameter[at..])
            };
            (name.into(), parameters.map(rust).collect())
        })
        .collect()
}

fn calls_of_binding() -> BTreeMap<String, Vec<String>> {
    let text = text("include/antenna.rs");
    let calls = text.split(" fn antenna_").skip(1);
    calls
        .map(|call| {
            let (name, rest) = call.split_once('(').unwrap();
            let (parameters, rest) = rest.split_once(')').unwrap();
            assert!(rest.starts_with(" -> Answer;"), "{name}");
            let parameters = parameters.split(',').map(str::trim);
            let parameters = parameters.filter(|p| !p.is_empty()).map(String::from);
            (format!("antenna_{name}"), parameters.collect())
        })
        .collect()
}

#[test]
fn calls_and_exports() {
    let calls = calls_of_header();
    assert_eq!(calls, calls_of_binding());
    let mut nm = Command::new("nm");
    nm.args(["--defined-only", "--extern-only", "--format=just-symbols"])
        .arg(root().join("target/staticlib/libantenna.a"));
    let exports = words(&printed(&mut nm), "antenna_");
    assert_eq!(exports, calls.into_keys().collect());
}

#[test]
fn version_of_the_package() {
    let version = format!("Version: {VERSION_MAJOR}.{VERSION_MINOR}");
    assert!(text("include/antenna.pc").lines().any(|l| l == version));
}
