//! Lines: prefixes, a word with its range and bang, and an argument that fits the word.
use super::lists::{list, short_list, Items};
use super::random::Random;
use super::ranges::{range, spoiled_range};
use super::words::{Words, PREFIXES, TAB};
use super::{pieces, vector_text};
use crate::vector::LONGEST;

/// Pushes a line.
pub fn line(random: &mut Random, words: &Words, out: &mut String) {
    prefixes(random, words, out);
    command(random, words, out);
    tail(random, out);
}

fn prefixes(random: &mut Random, words: &Words, out: &mut String) {
    let many = match random.weighted(&[660, 150, 80, 75, 32, 3]) {
        3 => random.within(3, 6),
        4 => random.within(7, 60),
        5 => return many_prefixes(random, words, out),
        few => few,
    };

    for _ in 0..many {
        prefix(random, words, out);
    }
}

fn prefix(random: &mut Random, words: &Words, out: &mut String) {
    start(random, out);
    let word = words.prefix(random);
    let tab = words.lookup(&word) == Some(TAB);

    if random.percent(if tab { 40 } else { 12 }) {
        prefix_range(random, out);
    }

    out.push_str(&word);
    bang(random, out, 6);
    gap(random, out);
}

/// Pushes a range that a tab prefix most often takes.
fn prefix_range(random: &mut Random, out: &mut String) {
    match random.below(4) {
        0 => range(random, out),
        1 => {
            let easy = random.pick(&["$", ".", "0", "1", "+", "-", "+5-3"]);
            out.push_str(easy);
        }
        _ => out.push_str(&random.below(200).to_string()),
    }
}

/// Pushes so many of the shortest prefix words that the line nears its longest.
fn many_prefixes(random: &mut Random, words: &Words, out: &mut String) {
    let Some(word) = words.shortest_prefix() else {
        return;
    };
    let piece = format!("{word} ");
    let most = LONGEST / piece.len();
    let many = if random.percent(50) {
        most
    } else {
        random.within(most / 4, most)
    };

    out.extend((0..many).map(|_| piece.as_str()));

    if many == most && random.percent(50) {
        // Room for a word at the end.
        out.truncate(out.len() - 4 * piece.len());
    }
}

fn command(random: &mut Random, words: &Words, out: &mut String) {
    start(random, out);

    let word = words.word(random);
    let number = words.lookup(&word);
    let ranged = match number {
        Some(9 | 16 | 17 | 19) => 25,
        _ => 50,
    };

    if random.percent(ranged) {
        range(random, out);

        if random.once_in(40) {
            pieces::spaces(random, out);
        }
    }

    out.push_str(&word);
    bang(random, out, 18);

    let before = out.len();
    gap(random, out);
    let gapped = out.len();
    argument(random, words, number, out);

    if out.len() == gapped && random.percent(90) {
        out.truncate(before);
    }
}

/// Pushes what may stand before the range.
fn start(random: &mut Random, out: &mut String) {
    if random.once_in(12) {
        pieces::spaces(random, out);
    }

    match random.weighted(&[75, 20, 3, 1]) {
        0 => {}
        1 => out.push(':'),
        2 => out.extend((0..random.within(2, 5)).map(|_| ':')),
        _ => out.push_str(": :"),
    }

    if random.once_in(12) {
        pieces::spaces(random, out);
    }

    if random.once_in(150) {
        out.push(pieces::no_space(random));
    }
}

fn bang(random: &mut Random, out: &mut String, percent: usize) {
    if random.percent(percent) {
        out.push_str(if random.once_in(12) { "!!" } else { "!" });
    }
}

/// Pushes what may stand between the word or bang and the argument.
fn gap(random: &mut Random, out: &mut String) {
    match random.weighted(&[85, 10, 4]) {
        0 => out.push(' '),
        1 => pieces::spaces(random, out),
        _ => {}
    }
}

/// Pushes an argument for a command, most often of the form it reads.
fn argument(random: &mut Random, words: &Words, number: Option<usize>, out: &mut String) {
    if random.once_in(16) {
        return any_argument(random, out);
    }

    match number {
        Some(9) => ranged_argument(random, out, 92),
        Some(16 | 17 | 19) => ranged_argument(random, out, 70),
        Some(10 | 11 | 12 | 15 | 22) if random.percent(75) => short_list(random, out),
        Some(10 | 11 | 12 | 15 | 22) => list(random, out, Items::Names),
        Some(prefix) if PREFIXES.contains(&prefix) => {
            if random.percent(70) {
                command(random, words, out);
            }
        }
        _ if random.percent(60) => {}
        _ => any_argument(random, out),
    }
}

/// Pushes a range argument in `percent` of a hundred cases.
fn ranged_argument(random: &mut Random, out: &mut String, percent: usize) {
    if !random.percent(percent) {
        return;
    }

    match random.weighted(&[40, 35, 12]) {
        0 => range(random, out),
        1 => {
            let sign = random.pick(&["", "", "+", "-"]);
            out.push_str(sign);
            out.push_str(&random.below(300).to_string());
        }
        _ => spoiled_range(random, out),
    }
}

fn any_argument(random: &mut Random, out: &mut String) {
    match random.below(4) {
        0 => range(random, out),
        1 => list(random, out, Items::Names),
        2 => list(random, out, Items::Options),
        _ => vector_text::noise(random, out),
    }
}

/// Pushes what may stand after the argument.
fn tail(random: &mut Random, out: &mut String) {
    match random.weighted(&[88, 4, 5, 1, 1]) {
        0 => {}
        1 => pieces::spaces(random, out),
        2 => out.push('\n'),
        3 => out.push_str("\n\n"),
        _ => {
            out.push('\n');
            vector_text::noise(random, out);
        }
    }
}
