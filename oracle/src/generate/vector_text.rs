//! Texts for each op: made by the grammar, then sometimes damaged or lengthened, and kept within
//! the comparison domain.
use super::lines::line;
use super::lists::{list, Items};
use super::pieces;
use super::random::Random;
use super::ranges::{range, spoiled_range};
use super::words::Words;
use crate::vector::{Op, LONGEST};

/// A text for an op that reads one.
pub fn text(random: &mut Random, words: &Words, op: Op) -> String {
    let mut text = String::new();

    match op {
        Op::Fresh | Op::Alias => unreachable!("no text of the grammar"),
        Op::Line | Op::Reading => line(random, words, &mut text),
        Op::Range if random.percent(80) => range(random, &mut text),
        Op::Range => spoiled_range(random, &mut text),
        Op::Filenames | Op::Strings => list(random, &mut text, Items::Names),
        Op::Options if random.percent(90) => list(random, &mut text, Items::Options),
        Op::Options => list(random, &mut text, Items::Names),
    }

    if random.percent(12) {
        for _ in 0..=random.weighted(&[70, 20, 10]) {
            damage(random, &mut text);
        }
    }

    if random.once_in(200) {
        lengthen(random, &mut text);
    }

    if random.once_in(300) {
        text.clear();
        noise(random, &mut text);
    }

    shorten(&mut text, LONGEST);
    text
}

/// Pushes characters without any order.
pub fn noise(random: &mut Random, out: &mut String) {
    out.extend((0..random.within(0, 12)).map(|_| pieces::any_character(random)));
}

/// Changes a text at one place.
fn damage(random: &mut Random, text: &mut String) {
    let places: Vec<usize> = text.char_indices().map(|(at, _)| at).collect();

    if places.is_empty() {
        text.push(pieces::any_character(random));
        return;
    }

    let at = *random.pick(&places);
    let c = text[at..].chars().next().unwrap();

    match random.below(8) {
        0 | 1 => drop(text.remove(at)),
        2 | 3 => text.insert(at, pieces::any_character(random)),
        4 => text.insert(at, c),
        5 => {
            text.remove(at);
            text.insert(at, pieces::any_character(random));
        }
        6 => text.truncate(at),
        _ => {
            text.remove(at);
            text.push(c);
        }
    }
}

/// Repeats a piece at some place until the text is about as long as a text may be.
fn lengthen(random: &mut Random, text: &mut String) {
    let length = *random.pick(&[
        LONGEST,
        LONGEST,
        LONGEST - 1,
        LONGEST - 2,
        LONGEST - 40,
        700,
    ]);
    let piece = *random.pick(&[
        "a", " ", "0", "9", ":", "+1", "-2", "\\ ", "\\\\", "é", "日", "😀", "tab ", "x y ",
        "++k=v ", "\"a b\" ", "vert ", "\t",
    ]);
    let room = length.saturating_sub(text.len());
    let mut at = if random.percent(50) {
        text.len()
    } else {
        random.below(text.len() + 1)
    };

    if piece == "0" {
        at = text.find(|c: char| c.is_ascii_digit()).unwrap_or(at);
    }

    while !text.is_char_boundary(at) {
        at -= 1;
    }

    text.insert_str(at, &piece.repeat(room / piece.len()));
}

/// Cuts a text to at most so many bytes, between characters.
fn shorten(text: &mut String, length: usize) {
    if text.len() > length {
        let mut at = length;

        while !text.is_char_boundary(at) {
            at -= 1;
        }

        text.truncate(at);
    }
}
