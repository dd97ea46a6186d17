//! Actions: what a line does. An action holds a target, a target holds a focus, a focus holds a count.
//!
//! The names are modalkit's. Where the record has a number and no count, the case holds a number; Offset's flag, which is always
//! false, is left out; and the side on which a window is opened is a type of its own.
use crate::flags::{CloseFlags, OpenFlags, WriteFlags};

/// What a line does, on windows or on tabs.
///
/// [`Action::from_record`] reads it, and [`Display`](std::fmt::Display) says it in plain words. Not said are a flag that is
/// not set, a size or a number of steps that is left to the context, and that a window is split once.
///
/// ```
/// use pagyolint::{Action, Axis, Count, OpenFlags, OpenTarget, Side, WindowAction};
///
/// let action = Action::from_record(b"\x04\x03\x03a b\x00\x01\x01\x01\x03").unwrap().unwrap();
/// let target = OpenTarget::Name("a b".into());
/// let split = WindowAction::Split(target, OpenFlags::NONE, Axis::Vertical, Side::Previous, Count::Exact(3));
/// assert_eq!(action, Action::Window(split));
/// assert_eq!(action.to_string(), r#"split "a b", on the left, 3 times"#);
/// ```
#[derive(Clone, Debug, PartialEq, Eq, Hash)]
pub enum Action {
    /// An action on windows.
    Window(WindowAction),
    /// An action on tabs.
    Tab(TabAction),
}

/// What is done to windows.
#[derive(Clone, Debug, PartialEq, Eq, Hash)]
pub enum WindowAction {
    /// Close windows.
    Close(WindowTarget, CloseFlags),
    /// Resize a window along an axis.
    Resize(FocusChange, Axis, SizeChange),
    /// Open a window of a size, along an axis, on a side of the current one.
    Open(OpenTarget, OpenFlags, Axis, Side, Count),
    /// Split the window so many times, along an axis, with the new one on a side of the current one.
    Split(OpenTarget, OpenFlags, Axis, Side, Count),
    /// Open something in the window that is there.
    Switch(OpenTarget, OpenFlags),
    /// Write windows, to the file that is named or to their own.
    Write(WindowTarget, Option<String>, WriteFlags),
}

/// What is done to tabs.
#[derive(Clone, Debug, PartialEq, Eq, Hash)]
pub enum TabAction {
    /// Close tabs.
    Close(TabTarget, CloseFlags),
    /// Focus a tab.
    Focus(FocusChange),
    /// Move the current tab to where a focus would go.
    Move(FocusChange),
    /// Open something in a new tab, at a place.
    Open(OpenTarget, OpenFlags, FocusChange),
}

/// What is opened.
#[derive(Clone, Debug, PartialEq, Eq, Hash)]
pub enum OpenTarget {
    /// The current file: `%`, or no argument.
    Current,
    /// The alternate file: `#`.
    Alternate,
    /// No file: `tabedit` without an argument.
    Unnamed,
    /// The file of this name.
    Name(String),
}

/// The windows that an action is for.
#[derive(Clone, Debug, PartialEq, Eq, Hash)]
pub enum WindowTarget {
    /// One.
    Single(FocusChange),
    /// All but one.
    AllBut(FocusChange),
    /// All.
    All,
}

/// The tabs that an action is for.
#[derive(Clone, Debug, PartialEq, Eq, Hash)]
pub enum TabTarget {
    /// One.
    Single(FocusChange),
    /// All but one.
    AllBut(FocusChange),
    /// All.
    All,
}

/// Which window or tab is meant.
#[derive(Clone, Debug, PartialEq, Eq, Hash)]
pub enum FocusChange {
    /// The current one.
    Current,
    /// The one with this number.
    Offset(u64),
    /// So many on from the current one in a direction; with `true`, past the last or the first to the other end.
    Direction1D(MoveDir1D, Count, bool),
    /// The first or the last.
    Position(MovePosition),
}

/// The first or the last.
#[derive(Clone, Copy, Debug, PartialEq, Eq, Hash)]
pub enum MovePosition {
    /// The first.
    Beginning,
    /// The last.
    End,
}

/// A direction among windows or tabs.
#[derive(Clone, Copy, Debug, PartialEq, Eq, Hash)]
pub enum MoveDir1D {
    /// Forward.
    Next,
    /// Backward.
    Previous,
}

/// The side of the current window on which one is opened; modalkit has a [`MoveDir1D`] for it.
#[derive(Clone, Copy, Debug, PartialEq, Eq, Hash)]
pub enum Side {
    /// After the current one: below it, or to its right.
    Next,
    /// Before the current one: above it, or to its left.
    Previous,
}

/// The axis along which windows are split and resized.
#[derive(Clone, Copy, Debug, PartialEq, Eq, Hash)]
pub enum Axis {
    /// One above the other.
    Horizontal,
    /// One beside the other.
    Vertical,
}

/// A count.
#[derive(Clone, Copy, Debug, PartialEq, Eq, Hash)]
pub enum Count {
    /// The line has none, and the context decides.
    Contextual,
    /// This one.
    Exact(u64),
}

/// What a window's size becomes.
#[derive(Clone, Copy, Debug, PartialEq, Eq, Hash)]
pub enum SizeChange {
    /// This size.
    Exact(u64),
    /// Larger by so much.
    Increase(u64),
    /// Smaller by so much.
    Decrease(u64),
}
