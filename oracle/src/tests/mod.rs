//! The oracle against document 01 and the points settled about it.

mod samples;
mod settled;
mod streams;

use crate::answer::Oracle;
use crate::session::Session;
use crate::vector::Op;

/// 2^64, the least number that is too large, and the number before it.
const OVER: &str = "18446744073709551616";
const MOST: &str = "18446744073709551615";

/// The record's form of 2^64 - 1.
const MOST_HEX: &str = "ffffffffffffffffff01";

/// A text with [OVER] for `O` and [MOST] for `B`.
fn expand(text: &str) -> String {
    text.replace('O', OVER).replace('B', MOST)
}

/// What a line gives in a fresh session, as document 01's sample program prints it.
fn run(line: &str) -> String {
    Session::new().run(&expand(line)).to_string()
}

/// Checks lines, each with what it prints.
fn check(lines: &[(&str, &str)]) {
    for (line, expected) in lines {
        assert_eq!(run(line), expected.replace('B', MOST_HEX), "{line:?}");
    }
}

/// Checks that lines are all refused by `number` in their first reading.
fn refused(number: u64, lines: &[&str]) {
    for line in lines {
        assert_eq!(run(line), format!("{number} 1 -"), "{line:?}");
    }
}

/// Checks that lines are all accepted in one reading.
fn accepted(lines: &[&str]) {
    for line in lines {
        let printed = run(line);
        assert!(printed.starts_with("0 1 "), "{line:?} gives {printed}");
    }
}

/// The answer to an op on a text.
fn answer(op: Op, text: &str) -> Vec<u8> {
    let mut answer = Vec::new();
    Oracle::new()
        .answer(op, expand(text).as_bytes(), &mut answer)
        .unwrap();
    answer
}

/// Checks that argument readings called alone are refused by `number`.
fn refused_alone(number: u8, ops: &[Op], texts: &[&str]) {
    for op in ops {
        for text in texts {
            assert_eq!(answer(*op, text), [number], "{op:?} {text:?}");
        }
    }
}
