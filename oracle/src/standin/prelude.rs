//! `crate::prelude`: ranges, targets, focus changes, counts and flags.
use bitflags::bitflags;

/// A direction along one dimension; also the side of a new window.
#[derive(Clone, Copy, Debug, Eq, PartialEq)]
pub enum MoveDir1D {
    Previous,
    Next,
}

impl MoveDir1D {
    /// Exchanges Next and Previous.
    pub fn flip(&self) -> MoveDir1D {
        match self {
            MoveDir1D::Previous => MoveDir1D::Next,
            MoveDir1D::Next => MoveDir1D::Previous,
        }
    }
}

/// Axis along which windows are split.
#[derive(Clone, Copy, Debug, Eq, PartialEq)]
pub enum Axis {
    Horizontal,
    Vertical,
}

/// A count, left to the context or exact. Counts are 64-bit.
#[derive(Clone, Debug, Eq, PartialEq)]
pub enum Count {
    Contextual,
    Exact(usize),
}

const _: () = assert!(usize::BITS == 64);

impl From<usize> for Count {
    fn from(n: usize) -> Self {
        Count::Exact(n)
    }
}

/// A value, left to the context or exact.
#[derive(Clone, Debug, Eq, PartialEq)]
pub enum Specifier<T> {
    #[allow(dead_code)]
    Contextual,
    Exact(T),
}

/// A marked place, by the kinds that parse.rs names.
#[derive(Clone, Debug, Eq, PartialEq)]
pub enum Mark {
    BufferNamed(char),
    GlobalNamed(char),
    GlobalLastExited(usize),
    VisualBegin,
    VisualEnd,
    LastYankedBegin,
    LastYankedEnd,
    LastJump,
    LastInserted,
    LastChanged,
    BufferLastExited,
}

/// A range of lines: one end, or two with their separator.
#[derive(Clone, Debug, Eq, PartialEq)]
pub enum RangeSpec {
    Single(RangeEnding),
    Double(RangeEnding, RangeEnding, RangeSearchInit),
}

/// An end of a range: its atom and its offsets.
#[derive(Clone, Debug, Eq, PartialEq)]
pub struct RangeEnding(pub RangeEndingType, pub Vec<RangeEndingModifier>);

/// The atom of an end.
#[derive(Clone, Debug, Eq, PartialEq)]
pub enum RangeEndingType {
    Absolute(Count),
    Mark(Specifier<Mark>),
    Current,
    Last,
    All,
    Search(MoveDir1D),
    SubPatSearch(MoveDir1D),
    Unspecified,
}

/// An offset of an end.
#[derive(Clone, Debug, Eq, PartialEq)]
pub enum RangeEndingModifier {
    Offset(MoveDir1D, Count),
}

/// The separator of two ends: `,` is Cursor and `;` is Start.
#[derive(Clone, Debug, Eq, PartialEq)]
pub enum RangeSearchInit {
    Cursor,
    Start,
}

/// The first or last position.
#[derive(Clone, Debug, Eq, PartialEq)]
pub enum MovePosition {
    Beginning,
    End,
}

/// Which window or tab to focus.
#[derive(Clone, Debug, Eq, PartialEq)]
pub enum FocusChange {
    Current,
    Offset(Count, bool),
    Direction1D(MoveDir1D, Count, bool),
    Position(MovePosition),
}

/// The windows that an action is for.
#[derive(Clone, Debug, Eq, PartialEq)]
pub enum WindowTarget {
    Single(FocusChange),
    AllBut(FocusChange),
    All,
}

/// The tabs that an action is for.
#[derive(Clone, Debug, Eq, PartialEq)]
pub enum TabTarget {
    Single(FocusChange),
    AllBut(FocusChange),
    All,
}

/// What to open. `W` is an application's own window identifier, which no handler makes.
#[derive(Clone, Debug, Eq, PartialEq)]
pub enum OpenTarget<W> {
    Alternate,
    #[allow(dead_code)]
    Application(W),
    Current,
    Name(String),
    Unnamed,
}

/// A change of a window's size.
#[derive(Clone, Debug, Eq, PartialEq)]
pub enum SizeChange {
    Exact(Count),
    Increase(Count),
    Decrease(Count),
}

/// How words are told apart; only completion asks.
pub enum WordStyle {
    Little,
}

bitflags! {
    /// Flags of opening; the values are those of the record.
    pub struct OpenFlags: u32 {
        const NONE = 0;
        const FORCE = 1;
        const READONLY = 2;
    }
}

bitflags! {
    /// Flags of closing; the values are those of the record.
    pub struct CloseFlags: u32 {
        const NONE = 0;
        const QUIT = 1;
        const FORCE = 2;
        const FQ = Self::QUIT.bits | Self::FORCE.bits;
    }
}

bitflags! {
    /// Flags of writing; the values are those of the record.
    pub struct WriteFlags: u32 {
        const NONE = 0;
        const FORCE = 1;
    }
}
