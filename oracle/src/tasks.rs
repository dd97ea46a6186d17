//! The tasks of the program, from standard input to standard output.
use std::io::{self, BufReader, BufWriter, Read, Write};

use crate::answer::Oracle;
use crate::arguments::Task;
use crate::exhaustive;
use crate::generate::Requests;
use crate::product;
use crate::session::Session;
use crate::stats::Stats;
use crate::vector::{self, bad, read_op, read_part, Op};

/// Room for input and output.
const BUFFER: usize = 1 << 20;

/// Does what the program is asked to do.
pub fn perform(task: Task) -> io::Result<()> {
    let mut input = BufReader::with_capacity(BUFFER, io::stdin().lock());
    let mut output = BufWriter::with_capacity(BUFFER, io::stdout().lock());

    match task {
        Task::Answer => answer_all(&mut input, &mut output)?,
        Task::Random { seed, count, ops } => {
            let mut requests = Requests::new(seed, ops);
            let mut answers = Answers::new(&mut output);

            for _ in 0..count {
                let (op, text) = requests.request();
                answers.write(op, &text)?;
            }
        }
        Task::Exhaustive {
            op,
            alphabet,
            length,
            before,
            after,
        } => {
            let mut answers = Answers::new(&mut output);

            exhaustive::each(&alphabet, length, |middle| {
                let text = [&before, middle, &after].concat();

                // Bytes of an alphabet beyond ASCII make texts that are outside the domain.
                if std::str::from_utf8(&text).is_ok() {
                    answers.write(op, &text)?;
                }

                Ok::<_, io::Error>(())
            })?;
        }
        Task::Commands => {
            let mut answers = Answers::new(&mut output);
            product::each(|line| answers.write(Op::Line, line))?;
        }
        Task::Stats => Stats::read(&mut input)?.print(&mut output)?,
        Task::Line => {
            let mut line = String::new();
            input.read_to_string(&mut line)?;
            writeln!(output, "{}", Session::new().run(&line))?;
        }
    }

    output.flush()
}

/// Answers a stream of requests.
pub fn answer_all(input: &mut impl Read, output: &mut impl Write) -> io::Result<()> {
    let mut answers = Answers::new(output);
    let mut text = Vec::new();

    while let Some(op) = read_op(input)? {
        read_part(input, &mut text)?;
        answers.write(op, &text)?;
    }

    Ok(())
}

/// Writes vectors, answered one after another.
pub struct Answers<'a, W: Write> {
    oracle: Oracle,
    answer: Vec<u8>,
    written: u64,
    output: &'a mut W,
}

impl<'a, W: Write> Answers<'a, W> {
    pub fn new(output: &'a mut W) -> Self {
        Answers {
            oracle: Oracle::new(),
            answer: Vec::new(),
            written: 0,
            output,
        }
    }

    pub fn write(&mut self, op: Op, text: &[u8]) -> io::Result<()> {
        self.answer.clear();
        self.oracle
            .answer(op, text, &mut self.answer)
            .map_err(|error| bad(format!("vector {}: {error}", self.written)))?;
        self.written += 1;

        vector::write(self.output, op, text, &self.answer)
    }
}
