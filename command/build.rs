//! Where the proved library stands.

fn main() {
    let root = std::env::var("CARGO_MANIFEST_DIR").unwrap();
    let folder = format!("{root}/../target/staticlib");
    println!("cargo:rustc-link-search=native={folder}");
    println!("cargo:rerun-if-changed={folder}/libantenna.a");
}
