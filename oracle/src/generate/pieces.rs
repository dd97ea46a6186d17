//! Characters and spaces.
use super::random::Random;

/// Characters that some rule of the reading speaks of.
const TELLING: &str = " \t\n\r:!,;+-.%$\\/?&'\"#|=<>[]^`@~*0123456789";

/// Characters at the borders of UTF-8's lengths, and some that look like spaces.
const WIDE: [char; 18] = [
    '\u{80}',
    '\u{85}',
    '\u{a0}',
    'é',
    '\u{7ff}',
    '\u{800}',
    '\u{2003}',
    '\u{2028}',
    '\u{3000}',
    '日',
    '\u{d7ff}',
    '\u{e000}',
    '\u{feff}',
    '\u{ffff}',
    '\u{10000}',
    '😀',
    '\u{fffff}',
    '\u{10ffff}',
];

/// Any character, most often a telling one.
pub fn any_character(random: &mut Random) -> char {
    match random.weighted(&[12, 4, 2, 3]) {
        0 => random.letter(TELLING),
        1 => plain(random),
        2 => ascii(random),
        _ => wide(random),
    }
}

/// Any character of one byte.
pub fn ascii(random: &mut Random) -> char {
    random.below(128) as u8 as char
}

/// A character that looks like a space, or like nothing, and is no space here.
pub fn no_space(random: &mut Random) -> char {
    *random.pick(&[
        '\r', '\x0b', '\x0c', '\0', '\u{85}', '\u{a0}', '\u{3000}', '\u{feff}',
    ])
}

/// A letter or digit, or a mark that means nothing in a name.
pub fn plain(random: &mut Random) -> char {
    random.letter("abcdefghijklmnopqrstuvwxyzABCXYZ0123456789._-/+=,;:!?$'()[]{}<>*&@~^`")
}

/// A character of two to four bytes.
pub fn wide(random: &mut Random) -> char {
    if random.percent(70) {
        return *random.pick(&WIDE);
    }

    let limit = *random.pick(&[0x800, 0x10000, 0x110000]);
    char::from_u32(random.within(0x80, limit - 1) as u32).unwrap_or('\u{fffd}')
}

/// Pushes one to three spaces or tabs.
pub fn spaces(random: &mut Random, out: &mut String) {
    let many = random.weighted(&[7, 2, 1]) + 1;
    out.extend((0..many).map(|_| if random.percent(75) { ' ' } else { '\t' }));
}
