//! Refusals by document 01's numbers, and how the Rust's errors and panics become them.
use std::any::Any;
use std::cell::Cell;
use std::panic::{catch_unwind, resume_unwind, set_hook, take_hook, AssertUnwindSafe};
use std::sync::Once;

use crate::commands::CommandError;

/// Why a text was turned down.
#[derive(Debug, Eq, PartialEq)]
pub enum Refusal {
    /// 3: a line, list or range does not parse.
    Parse,
    /// 4: digits too large; the Rust panics.
    Digits,
    /// 5: InvalidArgument.
    Argument,
    /// 6: InvalidRange.
    Range,
    /// 7: an overflowing sum; the Rust panics.
    Sum,
    /// 10: an unknown word.
    Command(String),
    /// 11: a command that the Rust has not implemented.
    Unimplemented,
}

impl Refusal {
    /// The refusal's number.
    pub fn number(&self) -> u64 {
        match self {
            Refusal::Parse => 3,
            Refusal::Digits => 4,
            Refusal::Argument => 5,
            Refusal::Range => 6,
            Refusal::Sum => 7,
            Refusal::Command(_) => 10,
            Refusal::Unimplemented => 11,
        }
    }
}

impl From<CommandError> for Refusal {
    fn from(error: CommandError) -> Self {
        match error {
            CommandError::ParseFailed(_) => Refusal::Parse,
            CommandError::InvalidArgument => Refusal::Argument,
            CommandError::InvalidRange => Refusal::Range,
            CommandError::InvalidCommand(word) => Refusal::Command(word),
            CommandError::Error(_) => Refusal::Unimplemented,
        }
    }
}

thread_local! {
    /// Whether a panic now would be one of the Rust's answers.
    static CATCHING: Cell<bool> = const { Cell::new(false) };
}

/// Runs a piece of the Rust; its errors and its panics come back as refusals.
///
/// A panic with a message that document 01 does not speak of goes on.
pub fn caught<T>(run: impl FnOnce() -> Result<T, CommandError>) -> Result<T, Refusal> {
    silence_caught_panics();

    CATCHING.set(true);
    let result = catch_unwind(AssertUnwindSafe(run));
    CATCHING.set(false);

    match result {
        Ok(answer) => answer.map_err(Refusal::from),
        Err(panic) => Err(of_panic(panic)),
    }
}

/// The refusal that a panic stands for.
fn of_panic(panic: Box<dyn Any + Send>) -> Refusal {
    let message = match (panic.downcast_ref::<&str>(), panic.downcast_ref::<String>()) {
        (Some(text), _) => text,
        (None, Some(text)) => text.as_str(),
        (None, None) => "",
    };

    if message.contains("PosOverflow") {
        Refusal::Digits
    } else if message == "attempt to add with overflow" {
        Refusal::Sum
    } else {
        eprintln!("the Rust panicked: {message}");
        resume_unwind(panic)
    }
}

/// Keeps panics that are answers from being printed; others are printed as ever.
fn silence_caught_panics() {
    static ONCE: Once = Once::new();

    ONCE.call_once(|| {
        let print = take_hook();

        set_hook(Box::new(move |info| {
            if !CATCHING.get() {
                print(info);
            }
        }));
    });
}
