//! Links the archive of the exported entries, and takes the sizes of a session and of a store from the header beside it.
use std::env;
use std::fs;
use std::path::PathBuf;

/// A number that the header defines.
fn defined(header: &str, name: &str) -> usize {
    let value = header.lines().find_map(|line| line.strip_prefix("#define ")?.strip_prefix(name));
    value.and_then(|value| value.trim().parse().ok()).unwrap_or_else(|| panic!("the header has no {name}"))
}

fn main() {
    let top = PathBuf::from(env::var_os("CARGO_MANIFEST_DIR").unwrap()).join("../..");
    let folder = top.join("target/staticlib");
    let archive = folder.join("libentries.a");

    assert!(
        archive.is_file(),
        "{} is missing: run `tests/archive` in the repository's top folder",
        archive.display()
    );
    println!("cargo:rerun-if-changed={}", archive.display());
    println!("cargo:rustc-link-search=native={}", folder.display());
    println!("cargo:rustc-link-lib=static=entries");

    let header = top.join("include/pagyolint.h");
    let text = fs::read_to_string(&header).unwrap();
    let [session, store] = ["SESSION", "STORE"].map(|name| defined(&text, &format!("PAGYOLINT_{name}_BYTES")));
    let sizes = format!("const SESSION: usize = {session};\nconst STORE: usize = {store};\n");
    fs::write(PathBuf::from(env::var_os("OUT_DIR").unwrap()).join("sizes.rs"), sizes).unwrap();
    println!("cargo:rerun-if-changed={}", header.display());
}
