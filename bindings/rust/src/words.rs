//! All words in which the crate says actions and refusals. The console's programs have the same words (crates/phrases, crates/wording,
//! crates/reasons), and tests/reports.rs holds the two to one another.
//!
//! Two actions never have the same words: names stand in quotes, and every part of the record has a word or a number of its own,
//! or is known by having none.
use crate::action::{
    Action, Axis, Count, FocusChange, MoveDir1D, MovePosition, OpenTarget, Side, SizeChange,
    TabAction, TabTarget, WindowAction, WindowTarget,
};
use crate::command::Command;
use crate::flags::{CloseFlags, OpenFlags, WriteFlags};
use crate::record::NotARecord;
use crate::refusal::Refusal;
use crate::session::{Accepted, Answer, Refused};
use std::fmt::{Display, Formatter, Result};

impl Display for Refusal {
    fn fmt(&self, f: &mut Formatter<'_>) -> Result {
        f.write_str(match self {
            Refusal::LineTooLong => "the line is longer than 1024 bytes",
            Refusal::NotUtf8 => "the line is not UTF-8",
            Refusal::ParseFailed => "the line, or a list or range in it, does not parse",
            Refusal::NumberTooLarge => "a number is above 18446744073709551615",
            Refusal::InvalidArgument => "the command does not take this argument",
            Refusal::InvalidRange => "the command does not take this range",
            Refusal::SumTooLarge => "a sum of offsets is above 18446744073709551615",
            Refusal::BadAlias => "the alias is not 1 to 24 word characters",
            Refusal::BadCommand => "the command's number is above 27",
            Refusal::UnknownWord => "no command has this word",
            Refusal::Unimplemented => "the command is not implemented",
            Refusal::StoreTooShort => "the store is too short",
            Refusal::AliasesFull => "there are 32 aliases, and no place for a new one",
            Refusal::NotASession => "the bytes are not a session",
        })
    }
}

impl Display for Refused {
    fn fmt(&self, f: &mut Formatter<'_>) -> Result {
        match &self.word {
            Some(word) => write!(f, "{}: {}", self.refusal, Quoted(word)),
            None => self.refusal.fmt(f),
        }
    }
}

/// What a line comes to, as the console's reports have it: a refusal is told with the word that no command has, or else with the reading
/// that was refused, where one was begun.
impl Display for Answer {
    fn fmt(&self, f: &mut Formatter<'_>) -> Result {
        match &self.outcome {
            Ok(accepted) => accepted.fmt(f),
            Err(refused) if refused.word.is_some() || self.readings == 0 => refused.fmt(f),
            Err(refused) => write!(f, "{refused}, in reading {}", self.readings),
        }
    }
}

impl Display for NotARecord {
    fn fmt(&self, f: &mut Formatter<'_>) -> Result {
        f.write_str("the bytes are not a record")
    }
}

impl Display for Command {
    fn fmt(&self, f: &mut Formatter<'_>) -> Result {
        f.write_str(self.name())
    }
}

impl Display for Accepted {
    fn fmt(&self, f: &mut Formatter<'_>) -> Result {
        match &self.action {
            Some(action) => action.fmt(f),
            None => f.write_str("nothing"),
        }
    }
}

impl Display for Action {
    fn fmt(&self, f: &mut Formatter<'_>) -> Result {
        match self {
            Action::Window(action) => action.fmt(f),
            Action::Tab(action) => action.fmt(f),
        }
    }
}

impl Display for WindowAction {
    fn fmt(&self, f: &mut Formatter<'_>) -> Result {
        match self {
            WindowAction::Close(target, flags) => {
                write!(f, "close {target}{}", close_flags(*flags))
            }
            WindowAction::Resize(focus, axis, change) => {
                write!(f, "resize window {focus}, {} {change}", length(*axis))
            }
            WindowAction::Open(target, flags, axis, side, count) => {
                let (flags, place) = (open_flags(*flags), place(*axis, *side));
                let size = count_behind(&format!(", {} ", length(*axis)), *count);
                write!(f, "open {target}{flags}, {place}{size}")
            }
            WindowAction::Split(target, flags, axis, side, count) => {
                let (flags, place) = (open_flags(*flags), place(*axis, *side));
                write!(f, "split {target}{flags}, {place}{}", times(*count))
            }
            WindowAction::Switch(target, flags) => {
                write!(f, "switch to {target}{}", open_flags(*flags))
            }
            WindowAction::Write(target, None, flags) => {
                write!(f, "write {target}{}", write_flags(*flags))
            }
            WindowAction::Write(target, Some(name), flags) => {
                write!(
                    f,
                    "write {target} to {}{}",
                    Quoted(name),
                    write_flags(*flags)
                )
            }
        }
    }
}

impl Display for TabAction {
    fn fmt(&self, f: &mut Formatter<'_>) -> Result {
        match self {
            TabAction::Close(target, flags) => {
                write!(f, "close {target}{}", close_flags(*flags))
            }
            TabAction::Focus(focus) => write!(f, "focus tab {focus}"),
            TabAction::Move(focus) => write!(f, "move tab to {focus}"),
            TabAction::Open(target, flags, focus) => {
                write!(f, "open tab {target}{}, at {focus}", open_flags(*flags))
            }
        }
    }
}

impl Display for OpenTarget {
    fn fmt(&self, f: &mut Formatter<'_>) -> Result {
        match self {
            OpenTarget::Current => f.write_str("current"),
            OpenTarget::Alternate => f.write_str("alternate"),
            OpenTarget::Unnamed => f.write_str("unnamed"),
            OpenTarget::Name(name) => Quoted(name).fmt(f),
        }
    }
}

impl Display for WindowTarget {
    fn fmt(&self, f: &mut Formatter<'_>) -> Result {
        match self {
            WindowTarget::Single(focus) => write!(f, "window {focus}"),
            WindowTarget::AllBut(focus) => write!(f, "all windows but {focus}"),
            WindowTarget::All => f.write_str("all windows"),
        }
    }
}

impl Display for TabTarget {
    fn fmt(&self, f: &mut Formatter<'_>) -> Result {
        match self {
            TabTarget::Single(focus) => write!(f, "tab {focus}"),
            TabTarget::AllBut(focus) => write!(f, "all tabs but {focus}"),
            TabTarget::All => f.write_str("all tabs"),
        }
    }
}

impl Display for FocusChange {
    fn fmt(&self, f: &mut Formatter<'_>) -> Result {
        match self {
            FocusChange::Current => f.write_str("current"),
            FocusChange::Offset(number) => write!(f, "{number}"),
            FocusChange::Direction1D(direction, count, wrap) => {
                let wrap = if *wrap { ", wrapping" } else { "" };
                write!(f, "{direction}{}{wrap}", count_behind(" ", *count))
            }
            FocusChange::Position(position) => position.fmt(f),
        }
    }
}

impl Display for MovePosition {
    fn fmt(&self, f: &mut Formatter<'_>) -> Result {
        f.write_str(match self {
            MovePosition::Beginning => "first",
            MovePosition::End => "last",
        })
    }
}

impl Display for MoveDir1D {
    fn fmt(&self, f: &mut Formatter<'_>) -> Result {
        f.write_str(match self {
            MoveDir1D::Next => "next",
            MoveDir1D::Previous => "previous",
        })
    }
}

impl Display for SizeChange {
    fn fmt(&self, f: &mut Formatter<'_>) -> Result {
        match self {
            SizeChange::Exact(size) => write!(f, "to {size}"),
            SizeChange::Increase(size) => write!(f, "by +{size}"),
            SizeChange::Decrease(size) => write!(f, "by -{size}"),
        }
    }
}

/// A name in quotes. Quotes, backslashes and control characters are escaped, the first ones as document 01's quoted text has them.
struct Quoted<'a>(&'a str);

impl Display for Quoted<'_> {
    fn fmt(&self, f: &mut Formatter<'_>) -> Result {
        f.write_str("\"")?;

        for c in self.0.chars() {
            match c {
                '\t' => f.write_str("\\t")?,
                '\r' => f.write_str("\\r")?,
                '\n' => f.write_str("\\n")?,
                '\\' => f.write_str("\\\\")?,
                '"' => f.write_str("\\\"")?,
                _ if c.is_control() => write!(f, "\\u{{{:x}}}", u32::from(c))?,
                _ => write!(f, "{c}")?,
            }
        }

        f.write_str("\"")
    }
}

/// Where a window is opened: a horizontal one above or below this one, a vertical one beside it.
fn place(axis: Axis, side: Side) -> &'static str {
    match (axis, side) {
        (Axis::Horizontal, Side::Previous) => "above",
        (Axis::Horizontal, Side::Next) => "below",
        (Axis::Vertical, Side::Previous) => "on the left",
        (Axis::Vertical, Side::Next) => "on the right",
    }
}

/// What a size along an axis is.
fn length(axis: Axis) -> &'static str {
    match axis {
        Axis::Horizontal => "height",
        Axis::Vertical => "width",
    }
}

/// How often a window is split; nothing where it is once.
fn times(count: Count) -> String {
    match count {
        Count::Contextual => ", as often as the context says".to_owned(),
        Count::Exact(1) => String::new(),
        Count::Exact(number) => format!(", {number} times"),
    }
}

/// A count behind a text; nothing where the context decides.
fn count_behind(text: &str, count: Count) -> String {
    match count {
        Count::Contextual => String::new(),
        Count::Exact(number) => format!("{text}{number}"),
    }
}

fn close_flags(flags: CloseFlags) -> String {
    set(&[
        (flags.contains(CloseFlags::QUIT), ", quit"),
        (flags.contains(CloseFlags::FORCE), ", force"),
    ])
}

fn open_flags(flags: OpenFlags) -> String {
    set(&[
        (flags.contains(OpenFlags::FORCE), ", force"),
        (flags.contains(OpenFlags::READONLY), ", read-only"),
    ])
}

fn write_flags(flags: WriteFlags) -> String {
    set(&[(flags.contains(WriteFlags::FORCE), ", force")])
}

/// The words of the flags that are set.
fn set(words: &[(bool, &str)]) -> String {
    words
        .iter()
        .filter(|(is_set, _)| *is_set)
        .map(|(_, word)| *word)
        .collect()
}
