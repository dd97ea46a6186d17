//! `crate::editing`: the edit context, an application without windows of its own, and the types
//! that completion names.

/// The application's own identifiers.
pub mod application {
    use std::fmt::Debug;

    /// An application's window identifier.
    pub trait ApplicationWindowId: Clone + Debug + Eq {}

    /// An application's types.
    pub trait ApplicationInfo: Clone + Debug + Eq {
        type WindowId: ApplicationWindowId;
    }

    /// The application that adds nothing.
    #[derive(Clone, Debug, Eq, PartialEq)]
    pub enum EmptyInfo {}

    /// The window identifier of which there is none.
    #[derive(Clone, Debug, Eq, PartialEq)]
    pub enum NoWindow {}

    impl ApplicationWindowId for NoWindow {}

    impl ApplicationInfo for EmptyInfo {
        type WindowId = NoWindow;
    }
}

/// The context of a line, of which only counts are asked.
pub mod context {
    use crate::prelude::Count;

    /// Works out a value left to the context.
    pub trait Resolve<T, R> {
        fn resolve(&self, value: &T) -> R;
    }

    /// The edit context.
    #[derive(Clone, Debug, Default, Eq, PartialEq)]
    pub struct EditContext;

    impl Resolve<Count, usize> for EditContext {
        /// Exact(n) gives n. The reading makes no other count.
        fn resolve(&self, count: &Count) -> usize {
            match count {
                Count::Exact(n) => *n,
                Count::Contextual => unreachable!("a range holds exact counts only"),
            }
        }
    }
}

/// A cursor of a buffer; only completion asks.
pub mod cursor {
    pub struct Cursor;
}

/// The text of a buffer; only completion asks.
pub mod rope {
    use super::cursor::Cursor;
    use crate::prelude::WordStyle;
    use std::borrow::Cow;
    use std::ops::Range;

    pub struct EditRope;

    pub struct Offset;

    impl From<usize> for Offset {
        fn from(_: usize) -> Self {
            Offset
        }
    }

    impl EditRope {
        pub fn cursor_to_offset(&self, _: &Cursor) -> Offset {
            unimplemented!("completion")
        }

        pub fn slice(&self, _: Range<Offset>) -> EditRope {
            unimplemented!("completion")
        }

        pub fn get_prefix_word_mut(&self, _: &mut Cursor, _: &WordStyle) -> Option<EditRope> {
            unimplemented!("completion")
        }
    }

    impl<'a> From<&'a EditRope> for Cow<'a, str> {
        fn from(_: &'a EditRope) -> Self {
            unimplemented!("completion")
        }
    }
}

/// Completion of paths.
pub mod completion {
    use super::cursor::Cursor;
    use super::rope::EditRope;

    pub fn complete_path(_: &EditRope, _: &mut Cursor) -> Vec<String> {
        unimplemented!("completion")
    }
}
