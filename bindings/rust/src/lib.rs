#![doc = include_str!("../README.md")]
#![deny(missing_docs)]
#![deny(unsafe_code)]

mod action;
mod command;
mod flags;
mod record;
mod refusal;
mod session;
mod sys;
mod words;

pub use action::{
    Action, Axis, Count, FocusChange, MoveDir1D, MovePosition, OpenTarget, Side, SizeChange,
    TabAction, TabTarget, WindowAction, WindowTarget,
};
pub use command::Command;
pub use flags::{CloseFlags, OpenFlags, WriteFlags};
pub use record::NotARecord;
pub use refusal::Refusal;
pub use session::{Accepted, Answer, Refused, Session, LINE_BYTES, SESSION_BYTES};
