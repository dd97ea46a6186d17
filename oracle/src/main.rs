//! The oracle's program: see README.md.
use std::process::ExitCode;

use oracle::{arguments, tasks};

fn main() -> ExitCode {
    let task = match arguments::Task::from_arguments(std::env::args().skip(1)) {
        Ok(task) => task,
        Err(message) => {
            eprintln!("{message}\n{}", arguments::USAGE);
            return ExitCode::from(2);
        }
    };

    match tasks::perform(task) {
        Ok(()) => ExitCode::SUCCESS,
        Err(error) => {
            eprintln!("oracle: {error}");
            ExitCode::FAILURE
        }
    }
}
