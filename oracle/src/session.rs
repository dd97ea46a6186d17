//! A session of the command line: the CommandMachine of commands.rs, with its readings counted.
use std::cell::Cell;
use std::fmt;
use std::str::FromStr;

use crate::actions::Action;
use crate::command::{CommandContext, CommandDescription, VimCommand, VimCommandMachine};
use crate::commands::{Command, CommandMachine, CommandResult, CommandStep, ParsedCommand};
use crate::editing::application::EmptyInfo;
use crate::editing::context::EditContext;
use crate::record::{name, record};
use crate::refusal::{caught, Refusal};
use crate::source::NAMES;

thread_local! {
    /// Readings begun since the line began.
    static READINGS: Cell<u64> = const { Cell::new(0) };
}

/// A reading that counts itself as it begins.
#[derive(Debug)]
struct Counted(CommandDescription);

impl FromStr for Counted {
    type Err = String;

    fn from_str(text: &str) -> Result<Self, Self::Err> {
        READINGS.set(READINGS.get() + 1);
        CommandDescription::from_str(text).map(Counted)
    }
}

impl ParsedCommand for Counted {
    fn name(&self) -> String {
        self.0.name()
    }
}

/// A command whose lines are read by [Counted]; all else is VimCommand's.
#[derive(Clone, Debug)]
struct CountingCommand(VimCommand<EmptyInfo>);

impl Command for CountingCommand {
    type Parsed = Counted;
    type Action = Action<EmptyInfo>;
    type Context = EditContext;
    type CommandContext = CommandContext;

    fn name(&self) -> String {
        self.0.name()
    }

    fn aliases(&self) -> Vec<String> {
        self.0.aliases()
    }

    fn exec(&self, read: Counted, context: &mut CommandContext) -> CommandResult<Self> {
        Ok(match self.0.exec(read.0, context)? {
            CommandStep::Continue(action, context) => CommandStep::Continue(action, context),
            CommandStep::Stop(action, context) => CommandStep::Stop(action, context),
            CommandStep::Again(text) => CommandStep::Again(text),
        })
    }
}

/// What a line gave.
#[derive(Debug, Eq, PartialEq)]
pub struct Outcome {
    /// Readings begun.
    pub readings: u64,

    /// The action or nothing, if the line was accepted.
    pub result: Result<Option<Action<EmptyInfo>>, Refusal>,
}

/// As document 01's sample lines are printed: refusal, readings, and in hex the record or the
/// unknown word.
impl fmt::Display for Outcome {
    fn fmt(&self, f: &mut fmt::Formatter<'_>) -> fmt::Result {
        let mut bytes = Vec::new();
        let number = match &self.result {
            Ok(action) => {
                record(&mut bytes, action.as_ref());
                0
            }
            Err(refusal) => {
                if let Refusal::Command(word) = refusal {
                    name(&mut bytes, word);
                }

                refusal.number()
            }
        };

        write!(f, "{number} {} ", self.readings)?;

        if bytes.is_empty() {
            return f.write_str("-");
        }

        bytes.iter().try_for_each(|byte| write!(f, "{byte:02x}"))
    }
}

/// A session.
pub struct Session {
    commands: Vec<VimCommand<EmptyInfo>>,
    machine: CommandMachine<CountingCommand>,
}

impl Session {
    /// A fresh session.
    pub fn new() -> Session {
        let mut session = Session {
            commands: commands(),
            machine: CommandMachine::new(),
        };
        session.fresh();
        session
    }

    /// Makes the session fresh: shipped words only, nothing remembered.
    pub fn fresh(&mut self) {
        self.machine = CommandMachine::new();

        for command in &self.commands {
            self.machine.add_command(CountingCommand(command.clone()));
        }
    }

    /// Adds an alias for a command by its number, whatever its own words now lead to.
    pub fn add_alias(&mut self, number: usize, word: &str) {
        let mut command = self.commands[number].clone();
        command.aliases = vec![word.to_owned()];
        self.machine.add_command(CountingCommand(command));
    }

    /// Runs a line.
    pub fn run(&mut self, line: &str) -> Outcome {
        READINGS.set(0);

        let result = caught(|| self.machine.input_cmd(line, EditContext));
        let result = result.map(|mut actions| {
            assert!(actions.len() <= 1, "a line gives at most one action");
            actions.pop().map(|(action, _)| action)
        });

        Outcome {
            readings: READINGS.get(),
            result,
        }
    }

    /// The remembered line.
    pub fn remembered(&self) -> String {
        self.machine.get_last_command()
    }
}

/// The shipped commands, by number.
pub fn commands() -> Vec<VimCommand<EmptyInfo>> {
    let shipped = VimCommandMachine::<EmptyInfo>::default();

    NAMES
        .iter()
        .map(|name| {
            let command = shipped.get(name).expect("a name of default_cmds");
            assert_eq!(command.name, *name, "a shipped alias hides the name");
            command.clone()
        })
        .collect()
}
