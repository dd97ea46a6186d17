//! Links the archive of the proved functions, or says how it is made.
use std::path::PathBuf;

fn main() {
    let here = std::env::var_os("CARGO_MANIFEST_DIR").expect("cargo names the crate's folder");
    let folder = PathBuf::from(here).join("../../target/staticlib");
    let archive = folder.join("libentries.a");

    println!("cargo:rerun-if-changed=build.rs");
    println!("cargo:rerun-if-changed={}", archive.display());

    if !archive.is_file() {
        eprintln!(
            "There is no target/staticlib/libentries.a, the archive of the proved functions."
        );
        eprintln!("Run `tests/archive` in the repository's top folder, and cargo again.");
        eprintln!("It was looked for at {}", archive.display());
        std::process::exit(1);
    }

    println!("cargo:rustc-link-search=native={}", folder.display());
    println!("cargo:rustc-link-lib=static=entries");
}
