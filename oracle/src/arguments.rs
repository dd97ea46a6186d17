//! The arguments of the program.
use crate::exhaustive::unescape;
use crate::generate::Ops;
use crate::vector::Op;

pub const USAGE: &str = "\
usage: oracle answer
       oracle random --seed S --count N [--ops lines|reading|all]
       oracle exhaustive --op OP --alphabet BYTES --length N [--before BYTES] [--after BYTES]
       oracle commands
       oracle stats
       oracle line";

/// What the program is asked to do.
#[derive(Debug, Eq, PartialEq)]
pub enum Task {
    /// Answer the requests of standard input.
    Answer,
    /// Write random vectors.
    Random { seed: u64, count: u64, ops: Ops },
    /// Write a vector for every short text, between two fixed ones.
    Exhaustive {
        op: Op,
        alphabet: Vec<u8>,
        length: usize,
        before: Vec<u8>,
        after: Vec<u8>,
    },
    /// Write a vector for every command with every shape of range, bang, argument and prefixes.
    Commands,
    /// Count the vectors of standard input.
    Stats,
    /// Run standard input as one line of a fresh session, and print what it gives.
    Line,
}

impl Task {
    pub fn from_arguments(mut arguments: impl Iterator<Item = String>) -> Result<Task, String> {
        let task = arguments.next().ok_or("no command given")?;
        let mut options = Options(Vec::new());

        while let Some(name) = arguments.next() {
            let value = arguments.next().ok_or(format!("{name} has no value"))?;
            options.0.push((name, value));
        }

        let task = match task.as_str() {
            "answer" => Task::Answer,
            "random" => Task::Random {
                seed: number(&options.need("--seed")?)?,
                count: number(&options.need("--count")?)?,
                ops: ops(options.take("--ops").as_deref())?,
            },
            "exhaustive" => Task::Exhaustive {
                op: op(number(&options.need("--op")?)?)?,
                alphabet: alphabet(&options.need("--alphabet")?)?,
                length: number(&options.need("--length")?)? as usize,
                before: bytes(&options.take("--before").unwrap_or_default())?,
                after: bytes(&options.take("--after").unwrap_or_default())?,
            },
            "commands" => Task::Commands,
            "stats" => Task::Stats,
            "line" => Task::Line,
            _ => return Err(format!("no command {task}")),
        };

        match options.0.first() {
            None => Ok(task),
            Some((name, _)) => Err(format!("{name} has no place here")),
        }
    }
}

/// Options with their values, taken away as they are used.
struct Options(Vec<(String, String)>);

impl Options {
    fn take(&mut self, name: &str) -> Option<String> {
        let place = self.0.iter().position(|(known, _)| known == name)?;
        Some(self.0.remove(place).1)
    }

    fn need(&mut self, name: &str) -> Result<String, String> {
        self.take(name).ok_or(format!("{name} is missing"))
    }
}

fn number(text: &str) -> Result<u64, String> {
    text.parse().map_err(|_| format!("{text} is no number"))
}

fn bytes(text: &str) -> Result<Vec<u8>, String> {
    unescape(text).ok_or(format!("{text} has an unknown escape"))
}

fn alphabet(text: &str) -> Result<Vec<u8>, String> {
    match bytes(text)? {
        letters if letters.is_empty() => Err("the alphabet is empty".into()),
        letters => Ok(letters),
    }
}

fn ops(name: Option<&str>) -> Result<Ops, String> {
    match name {
        None | Some("all") => Ok(Ops::All),
        Some("lines") => Ok(Ops::Lines),
        Some("reading") => Ok(Ops::Reading),
        Some(name) => Err(format!("no ops {name}")),
    }
}

/// An op that reads a text by the grammar.
fn op(number: u64) -> Result<Op, String> {
    match Op::ALL.get(number as usize) {
        Some(Op::Fresh | Op::Alias) | None => Err(format!("op {number} reads no text")),
        Some(op) => Ok(*op),
    }
}
