//! Points the oracle at the Rust it runs: writes the module lines of that source, and the order of
//! its 28 commands, into OUT_DIR.
use std::path::{Path, PathBuf};
use std::{env, fs};

/// Where the source lies when PAGYOLINT_SOURCE is not set, seen from the repository's top folder.
const DEFAULT_SOURCE: &str = "../shared/docs/src";

/// The files that are compiled: module name, attributes, path below `crates/modalkit/src`.
const MODULES: [(&str, &str, &str); 3] = [
    ("util", "#[macro_use]", "util.rs"),
    ("commands", "", "commands.rs"),
    ("command", "", "env/vim/command/mod.rs"),
];

/// How many commands document 01 numbers.
const COMMANDS: usize = 28;

fn main() {
    println!("cargo:rerun-if-env-changed=PAGYOLINT_SOURCE");

    let source = source_folder().join("crates/modalkit/src");
    let mut modules = String::new();

    for (name, attributes, path) in MODULES {
        let file = source.join(path);

        if !file.is_file() {
            panic!(
                "{} is missing: set PAGYOLINT_SOURCE to the folder of the Rust",
                file.display()
            );
        }

        println!("cargo:rerun-if-changed={}", file.display());
        modules += &format!(
            "#[allow(clippy::all, dead_code, unreachable_patterns, unused_macros)]\n{attributes}\n\
             #[path = {file:?}]\npub mod {name};\n"
        );
    }

    modules += &format!(
        "/// The names of the commands in the order of default_cmds.\n\
         pub const NAMES: [&str; {COMMANDS}] = {:?};\n",
        names(&source.join(MODULES[2].2))
    );

    let out = PathBuf::from(env::var_os("OUT_DIR").unwrap());
    fs::write(out.join("source.rs"), modules).unwrap();
}

/// The folder named by PAGYOLINT_SOURCE, taken from the repository's top folder if relative.
fn source_folder() -> PathBuf {
    let top = PathBuf::from(env::var_os("CARGO_MANIFEST_DIR").unwrap()).join("..");
    let given = env::var_os("PAGYOLINT_SOURCE").unwrap_or_else(|| DEFAULT_SOURCE.into());
    let folder = top.join(given);

    folder.canonicalize().unwrap_or_else(|e| {
        panic!(
            "{}: {e}: set PAGYOLINT_SOURCE to the folder of the Rust",
            folder.display()
        )
    })
}

/// The command names as they stand, one after another, in the body of default_cmds.
///
/// That function is private and its order is lost in the machine's tries, so it is read off.
fn names(file: &Path) -> Vec<String> {
    let text = fs::read_to_string(file).unwrap();
    let body = text
        .split("fn default_cmds")
        .nth(1)
        .expect("no default_cmds");
    let body = &body[..body.find("\n}").expect("default_cmds has no end")];
    let names: Vec<String> = body
        .split("name: \"")
        .skip(1)
        .map(|rest| rest[..rest.find('"').unwrap()].to_owned())
        .collect();

    assert_eq!(names.len(), COMMANDS, "default_cmds of {}", file.display());
    names
}
