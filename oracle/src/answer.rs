//! The answer to each op: what the Rust gives, as numbers and names.
use std::io;
use std::str::FromStr;

use crate::command::{CommandArgument, CommandDescription, OptionType};
use crate::commands::CommandError;
use crate::editing::application::NoWindow;
use crate::prelude::*;
use crate::record::{direction, exact, name, number, record};
use crate::refusal::{caught, Refusal};
use crate::session::Session;
use crate::source::NAMES;
use crate::vector::{bad, Op, LONGEST};

/// Answers ops one after another; the session goes on from op to op.
pub struct Oracle {
    session: Session,
}

impl Oracle {
    /// An oracle with a fresh session.
    pub fn new() -> Oracle {
        Oracle {
            session: Session::new(),
        }
    }

    /// Writes the answer to `op` on `text`. Texts outside the comparison domain are errors.
    pub fn answer(&mut self, op: Op, text: &[u8], out: &mut Vec<u8>) -> io::Result<()> {
        if text.len() > LONGEST {
            return Err(bad(format!("a text of {} bytes", text.len())));
        }

        let text = std::str::from_utf8(text).map_err(|e| bad(e.to_string()))?;

        match op {
            Op::Fresh => self.session.fresh(),
            Op::Alias => self.alias(text, out)?,
            Op::Line => self.line(text, out),
            Op::Range => list(out, text, CommandArgument::range, |out, range| {
                range_spec(out, &range)
            }),
            Op::Filenames => list(out, text, CommandArgument::filenames::<NoWindow>, filenames),
            Op::Strings => list(out, text, CommandArgument::strings, strings),
            Op::Options => list(out, text, CommandArgument::options, options),
            Op::Reading => reading(out, text),
        }

        Ok(())
    }

    /// Op 1: a command's number in one byte and a word.
    fn alias(&mut self, text: &str, out: &mut Vec<u8>) -> io::Result<()> {
        let mut chars = text.chars();
        let command = chars.next().map_or(usize::MAX, |c| c as usize);

        if command >= NAMES.len() {
            return Err(bad("an alias without a command's number".into()));
        }

        self.session.add_alias(command, chars.as_str());
        number(out, 0);
        Ok(())
    }

    /// Op 2: class, readings, record or unknown word, remembered line.
    fn line(&mut self, text: &str, out: &mut Vec<u8>) {
        let outcome = self.session.run(text);

        match outcome.result {
            Ok(action) => {
                number(out, 0);
                number(out, outcome.readings);
                record(out, action.as_ref());
            }
            Err(refusal) => {
                number(out, refusal.number());
                number(out, outcome.readings);

                if let Refusal::Command(word) = refusal {
                    name(out, &word);
                }
            }
        }

        name(out, &self.session.remembered());
    }
}

/// Ops 3 to 6: a reading of an argument called alone.
fn list<T>(
    out: &mut Vec<u8>,
    text: &str,
    read: fn(&CommandArgument) -> Result<T, CommandError>,
    write: fn(&mut Vec<u8>, T),
) {
    let argument = CommandArgument {
        untrimmed: text.to_owned(),
        text: text.to_owned(),
    };
    classed(out, caught(|| read(&argument)), write);
}

/// Op 7: range or none, word, bang, argument.
fn reading(out: &mut Vec<u8>, text: &str) {
    let read = || CommandDescription::from_str(text).map_err(CommandError::ParseFailed);

    classed(out, caught(read), |out, read| {
        match &read.range {
            None => number(out, 0),
            Some(range) => {
                number(out, 1);
                range_spec(out, range);
            }
        }

        name(out, &read.command);
        number(out, read.bang.into());
        name(out, &read.arg.text);
    });
}

/// Writes the class and, if accepted, the value.
fn classed<T>(out: &mut Vec<u8>, result: Result<T, Refusal>, write: impl Fn(&mut Vec<u8>, T)) {
    match result {
        Ok(value) => {
            number(out, 0);
            write(out, value);
        }
        Err(refusal) => number(out, refusal.number()),
    }
}

fn filenames(out: &mut Vec<u8>, items: Vec<OpenTarget<NoWindow>>) {
    number(out, items.len() as u64);

    for item in items {
        match item {
            OpenTarget::Alternate => number(out, 0),
            OpenTarget::Current => number(out, 1),
            OpenTarget::Name(text) => {
                number(out, 2);
                name(out, &text);
            }
            OpenTarget::Unnamed | OpenTarget::Application(_) => unreachable!("no such item"),
        }
    }
}

fn strings(out: &mut Vec<u8>, items: Vec<String>) {
    number(out, items.len() as u64);

    for item in items {
        name(out, &item);
    }
}

fn options(out: &mut Vec<u8>, items: Vec<OptionType>) {
    number(out, items.len() as u64);

    for item in items {
        match item {
            OptionType::Positional(text) => {
                number(out, 0);
                name(out, &text);
            }
            OptionType::Flag(key, None) => {
                number(out, 1);
                name(out, &key);
            }
            OptionType::Flag(key, Some(value)) => {
                number(out, 2);
                name(out, &key);
                name(out, &value);
            }
        }
    }
}

fn range_spec(out: &mut Vec<u8>, range: &RangeSpec) {
    match range {
        RangeSpec::Single(end) => {
            number(out, 0);
            range_end(out, end);
        }
        RangeSpec::Double(left, right, separator) => {
            number(out, 1);
            range_end(out, left);
            range_end(out, right);
            number(
                out,
                match separator {
                    RangeSearchInit::Cursor => 0,
                    RangeSearchInit::Start => 1,
                },
            );
        }
    }
}

fn range_end(out: &mut Vec<u8>, RangeEnding(atom, offsets): &RangeEnding) {
    range_atom(out, atom);
    number(out, offsets.len() as u64);

    for RangeEndingModifier::Offset(towards, n) in offsets {
        direction(out, *towards);
        exact(out, n);
    }
}

fn range_atom(out: &mut Vec<u8>, atom: &RangeEndingType) {
    match atom {
        RangeEndingType::Unspecified => number(out, 0),
        RangeEndingType::Absolute(n) => {
            number(out, 1);
            exact(out, n);
        }
        RangeEndingType::Current => number(out, 2),
        RangeEndingType::All => number(out, 3),
        RangeEndingType::Last => number(out, 4),
        RangeEndingType::Search(MoveDir1D::Next) => number(out, 5),
        RangeEndingType::Search(MoveDir1D::Previous) => number(out, 6),
        RangeEndingType::SubPatSearch(_) => number(out, 7),
        RangeEndingType::Mark(Specifier::Exact(mark)) => {
            number(out, 8);
            out.push(mark_byte(mark));
        }
        RangeEndingType::Mark(Specifier::Contextual) => unreachable!("no such mark"),
    }
}

/// The byte that a mark is typed with; LastJump, which has two, is written as `'`.
fn mark_byte(mark: &Mark) -> u8 {
    match mark {
        Mark::BufferNamed(letter) | Mark::GlobalNamed(letter) => *letter as u8,
        Mark::GlobalLastExited(digit) => b'0' + *digit as u8,
        Mark::VisualBegin => b'<',
        Mark::VisualEnd => b'>',
        Mark::LastYankedBegin => b'[',
        Mark::LastYankedEnd => b']',
        Mark::LastJump => b'\'',
        Mark::LastInserted => b'^',
        Mark::LastChanged => b'.',
        Mark::BufferLastExited => b'"',
    }
}
