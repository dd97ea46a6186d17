//! Argument lists: file names, strings and options.
use super::pieces;
use super::random::Random;

/// What the items of a list look like.
#[derive(Clone, Copy)]
pub enum Items {
    Names,
    Options,
}

/// Pushes a list.
pub fn list(random: &mut Random, out: &mut String, items: Items) {
    let many = match random.weighted(&[8, 45, 25, 18, 4]) {
        3 => random.within(3, 6),
        4 => random.within(7, 30),
        few => few,
    };

    if random.once_in(25) {
        pieces::spaces(random, out);
    }

    for place in 0..many {
        if place > 0 && !random.once_in(40) {
            gap(random, out);
        }

        item(random, out, items);
    }

    if random.once_in(8) {
        pieces::spaces(random, out);
    }
}

/// Pushes a list of at most one item, the case that the handlers take.
pub fn short_list(random: &mut Random, out: &mut String) {
    if random.percent(85) {
        item(random, out, Items::Names);
    }

    if random.once_in(8) {
        pieces::spaces(random, out);
    }
}

fn gap(random: &mut Random, out: &mut String) {
    if random.percent(80) {
        out.push(' ');
    } else {
        pieces::spaces(random, out);
    }
}

fn item(random: &mut Random, out: &mut String, items: Items) {
    match (items, random.weighted(&[50, 30, 20])) {
        (Items::Names, 0) => plain(random, out),
        (Items::Names, 1) => quoted(random, out, ""),
        (Items::Names, _) => special(random, out),
        (Items::Options, 0) => option(random, out),
        (Items::Options, 1) => quoted_option(random, out),
        (Items::Options, _) if random.percent(50) => plain(random, out),
        (Items::Options, _) => quoted(random, out, ""),
    }
}

/// Pushes a lone `#` or `%`, or one that is not alone or not raw.
fn special(random: &mut Random, out: &mut String) {
    let c = random.letter("#%");

    match random.weighted(&[14, 1, 1, 1, 1, 1]) {
        0 => out.push(c),
        1 => out.extend([c, random.letter("#%|\"\\\n")]),
        2 => out.extend([c, pieces::any_character(random)]),
        3 => out.extend(['\\', c]),
        4 => out.extend(['"', c, '"']),
        _ => out.extend([pieces::plain(random), c]),
    }
}

/// Pushes plain text.
fn plain(random: &mut Random, out: &mut String) {
    for _ in 0..length(random) {
        plain_piece(random, out);
    }
}

fn plain_piece(random: &mut Random, out: &mut String) {
    match random.weighted(&[280, 60, 5, 40, 15, 2, 4]) {
        0 => out.push(pieces::plain(random)),
        1 => out.extend(['\\', random.letter("\\ #%|\"")]),
        2 => out.extend(['\\', pieces::ascii(random)]),
        3 => out.push(pieces::wide(random)),
        4 => out.push(random.letter("#%+=:!'")),
        5 => out.push(random.letter("|\"\n\t\\")),
        _ => out.push(pieces::no_space(random)),
    }
}

/// Pushes quoted text that starts with `head`.
fn quoted(random: &mut Random, out: &mut String, head: &str) {
    out.push('"');
    out.push_str(head);

    if !head.is_empty() || !random.once_in(30) {
        for _ in 0..length(random) {
            quoted_piece(random, out);
        }
    }

    if !random.once_in(40) {
        out.push('"');
    }

    if random.once_in(40) {
        plain_piece(random, out);
    }
}

fn quoted_piece(random: &mut Random, out: &mut String) {
    match random.weighted(&[250, 40, 60, 5, 40, 2, 4]) {
        0 => out.push(pieces::plain(random)),
        1 => out.push(random.letter("  |#%'")),
        2 => out.extend(['\\', random.letter("trn\\\"")]),
        3 => out.extend(['\\', pieces::ascii(random)]),
        4 => out.push(pieces::wide(random)),
        5 => out.push(random.letter("\t\n\"\\")),
        _ => out.push(pieces::no_space(random)),
    }
}

/// Pushes an option, most often a good one.
fn option(random: &mut Random, out: &mut String) {
    match random.weighted(&[12, 6, 4, 1, 1, 1, 2, 2, 3]) {
        0 => {
            out.push_str("++");
            plain(random, out);
            out.push('=');
            plain(random, out);
        }
        1 => {
            out.push_str("++");
            plain(random, out);
        }
        2 => {
            out.push_str("++");
            plain(random, out);
            out.push('=');
        }
        3 => out.push_str("++"),
        4 => out.push_str("++="),
        5 => {
            out.push_str("++=");
            plain(random, out);
        }
        6 => out.push_str("+++"),
        7 => {
            out.push('+');
            plain(random, out);
        }
        _ => {
            plain(random, out);
            out.push('=');
            plain(random, out);
        }
    }
}

/// Pushes an option in quotes.
fn quoted_option(random: &mut Random, out: &mut String) {
    let head = *random.pick(&[
        "++k=", "++k=v ", "++", "++k\\\"=", "++ =", "++a=b=", "+", "++\\\\",
    ]);
    quoted(random, out, head);
}

fn length(random: &mut Random) -> usize {
    match random.weighted(&[75, 22, 3]) {
        0 => random.within(1, 4),
        1 => random.within(5, 12),
        _ => random.within(13, 60),
    }
}
