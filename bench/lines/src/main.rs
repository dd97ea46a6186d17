//! Runs the same lines through the Rust's input_cmd and through the exported entry, in alternation, and prints what a line takes.
mod entry;
mod kinds;

use std::hint::black_box;
use std::time::Instant;

use entry::Entry;
use kinds::{kinds, mixed, sheet, Kind, SHAPES};
use oracle::command::{VimCommand, VimCommandMachine};
use oracle::editing::application::EmptyInfo;
use oracle::editing::context::EditContext;

/// Rounds of each; the least time counts.
const ROUNDS: usize = 25;
/// The time of a round, about, in nanoseconds.
const ROUND: f64 = 4e6;

/// The number of the command that aliases lead to: close.
const CLOSE: u64 = 5;

/// The Rust's command line.
struct Rust(VimCommandMachine<EmptyInfo>);

impl Rust {
    fn fresh() -> Rust {
        Rust(VimCommandMachine::default())
    }

    fn add_alias(&mut self, word: &str) {
        let mut command: VimCommand<EmptyInfo> = self.0.get("close").expect("close").clone();
        command.aliases = vec![word.to_owned()];
        self.0.add_command(command);
    }

    fn line(&mut self, line: &str) -> bool {
        black_box(self.0.input_cmd(line, EditContext)).is_ok()
    }
}

/// Both, with the same aliases.
fn both(kind: &Kind) -> (Rust, Entry) {
    let (mut rust, mut entry) = (Rust::fresh(), Entry::fresh());

    for word in &kind.aliases {
        rust.add_alias(word);
        entry.add_alias(word, CLOSE);
    }

    for line in &kind.lines {
        assert_eq!(rust.line(line), entry.line(line).refusal == 0, "{line}");
    }

    (rust, entry)
}

/// Nanoseconds of one line, of all lines `turns` times.
fn time(turns: usize, lines: &[String], mut run: impl FnMut(&str)) -> f64 {
    let begun = Instant::now();

    for _ in 0..turns {
        for line in lines {
            run(black_box(line));
        }
    }

    begun.elapsed().as_nanos() as f64 / (turns * lines.len()) as f64
}

/// Turns that take about a round.
fn turns(lines: &[String], mut run: impl FnMut(&str)) -> usize {
    let once = time(3, lines, &mut run) * lines.len() as f64;
    (ROUND / once) as usize + 1
}

/// The least time of the Rust and of the entry, in alternation.
fn least(kind: &Kind) -> (f64, f64) {
    let (mut rust, mut entry) = both(kind);
    let mut by_rust = |line: &str| {
        black_box(rust.line(line));
    };
    let mut by_entry = |line: &str| {
        black_box(entry.line(line));
    };
    let (m, n) = (
        turns(&kind.lines, &mut by_rust),
        turns(&kind.lines, &mut by_entry),
    );
    let mut least = (f64::MAX, f64::MAX);

    for _ in 0..ROUNDS {
        least.0 = least.0.min(time(m, &kind.lines, &mut by_rust));
        least.1 = least.1.min(time(n, &kind.lines, &mut by_entry));
    }

    least
}

fn table() {
    println!("| line | Rust, ns | entry, ns | ratio |\n|---|---|---|---|");

    for kind in kinds().into_iter().chain([sheet()]).chain(mixed()) {
        let (rust, entry) = least(&kind);
        println!("| {} | {rust:.0} | {entry:.1} | {:.1} |", kind.name, rust / entry);
    }
}

fn growth() {
    let lengths = [64, 128, 256, 512, 1024];
    println!("| line | side | 64 | 128 | 256 | 512 | 1,024 bytes |\n|---|---|---|---|---|---|---|");

    for shape in &SHAPES {
        let times = lengths.map(|n| {
            least(&Kind {
                name: String::new(),
                aliases: Vec::new(),
                lines: vec![(shape.line)(n)],
            })
        });
        let row = |pick: fn(&(f64, f64)) -> f64| times.map(|t| format!("{:.0}", pick(&t))).join(" | ");
        println!("| {} | Rust | {} |", shape.name, row(|t| t.0));
        println!("| | entry | {} |", row(|t| t.1));
    }
}

/// Runs one kind so often on one side, for counting instructions.
fn count(side: &str, number: usize, turns: usize) {
    let kind = &kinds()[number];
    let (mut rust, mut entry) = both(kind);

    for _ in 0..turns {
        for line in &kind.lines {
            match side {
                "rust" => black_box(rust.line(black_box(line))),
                _ => black_box(entry.line(black_box(line))).refusal == 0,
            };
        }
    }
}

fn main() {
    let words: Vec<String> = std::env::args().skip(1).collect();
    let words: Vec<&str> = words.iter().map(String::as_str).collect();

    match words[..] {
        ["table"] => table(),
        ["growth"] => growth(),
        ["kinds"] => kinds().iter().for_each(|kind| println!("{}\t{}", kind.lines.len(), kind.name)),
        ["count", side @ ("rust" | "entry"), number, turns] => {
            count(side, number.parse().unwrap(), turns.parse().unwrap())
        }
        _ => {
            eprintln!("usage: lines table | growth | kinds | count rust|entry KIND TURNS");
            std::process::exit(2);
        }
    }
}
