//! The Rust of docs/src, compiled where it lies: `util`, `commands`, `command` (with its `parse`),
//! and the order of its commands. build.rs writes these lines.
include!(concat!(env!("OUT_DIR"), "/source.rs"));
