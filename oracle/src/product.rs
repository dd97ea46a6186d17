//! Lines of every command with every shape of range, bang, argument and prefixes.
use crate::source::NAMES;

/// Ranges: none, each atom, offsets, two ends, and numbers at the border of 2^64.
const RANGES: [&str; 20] = [
    "",
    "0",
    "3",
    "3-5",
    "3+2",
    ".",
    ".+2",
    "$",
    "$+1",
    "%",
    "'a",
    r"\/",
    "+",
    "+5-3",
    "-0",
    "2,7",
    "2,.+4",
    "18446744073709551615+1",
    "+18446744073709551615+1",
    "18446744073709551616",
];

/// Arguments: none, file names and strings of all kinds, lists of two, lists that fail, and ranges.
const ARGUMENTS: [&str; 20] = [
    "",
    "a",
    r"a\ b",
    "\"a b\"",
    "#",
    "%",
    r"\#",
    "a b",
    "a ",
    "\"\"",
    "a|b",
    "5",
    "5 ",
    "+2",
    "5-9",
    "-3",
    "1,2",
    "$",
    ".+1",
    "18446744073709551616",
];

/// Contexts: none, each prefix, a tab with a range, and several prefixes before one command.
const PREFIXES: [&str; 12] = [
    "",
    "tab ",
    "3tab ",
    "vert ",
    "hor ",
    "abo ",
    "bel ",
    "vert bel ",
    "hor vert ",
    "bel abo ",
    "tab vert ",
    "vert tab abo ",
];

/// Visits every command with every range, bang and argument, and then every command in every context with the ranges and
/// arguments that stand first in a group of three.
pub fn each<E>(mut visit: impl FnMut(&[u8]) -> Result<(), E>) -> Result<(), E> {
    for word in NAMES {
        for range in RANGES {
            for bang in ["", "!"] {
                for argument in ARGUMENTS {
                    visit(format!("{range}{word}{bang} {argument}").as_bytes())?;
                }
            }
        }

        for prefix in &PREFIXES[1..] {
            for range in RANGES.iter().step_by(3) {
                for argument in ARGUMENTS.iter().step_by(4) {
                    visit(format!("{prefix}{range}{word} {argument}").as_bytes())?;
                }
            }
        }
    }

    Ok(())
}
