//! The kinds of lines that are measured.
use crate::entry::Entry;
use oracle::generate::{Ops, Requests};
use oracle::vector::Op;

/// Lines that are measured together.
pub struct Kind {
    pub name: String,
    /// The words of the aliases that are set.
    pub aliases: Vec<String>,
    pub lines: Vec<String>,
}

fn kind(name: &str, aliases: &[String], line: impl Into<String>) -> Kind {
    Kind {
        name: name.into(),
        aliases: aliases.to_vec(),
        lines: vec![line.into()],
    }
}

/// A line that is its own name.
fn short(line: &str) -> Kind {
    kind(&format!("`{line}`"), &[], line)
}

/// Words of so many bytes that are alike but for two: the last two, or the first two.
struct Alike {
    bytes: usize,
    with: &'static str,
    end: bool,
}

impl Alike {
    fn word(&self, two: &str) -> String {
        let with: String = self.with.chars().cycle().take(self.bytes - 2).collect();
        if self.end {
            two.to_owned() + &with
        } else {
            with + two
        }
    }

    /// 32 words. The last is above all others at both places, so that it is the last in a table by bytes and in one by their reverse.
    fn words(&self) -> Vec<String> {
        let letter = |first: u8, number: u8| char::from(first + number);
        let twos = (0..32).map(|n| [letter(b'A', n / 8), letter(b'a', n % 8)]);
        twos.map(|two| self.word(&String::from_iter(two))).collect()
    }
}

/// Lines with all aliases set: a shipped word, the last alias, and a word that no command has.
fn aliased(name: &str, words: Alike) -> [Kind; 3] {
    let all = words.words();
    [("`q`", "q".to_owned()), ("the last of them", all[31].clone()), ("an unknown word", words.word("zz"))]
        .map(|(line_name, line)| kind(&format!("32 aliases of {name}, {line_name}"), &all, line))
}

/// Word characters that are no letters.
const SYMBOLS: &str = "#&*<=>@~";

/// All kinds but the mixed lines: short commands, names, prefixes, refusals, all aliases set, and lines of 1,024 bytes.
pub fn kinds() -> Vec<Kind> {
    let mut all = vec![
        short("q"),
        short(":+5-3close"),
        short("vert 3sp a\\ b"),
        short("resize +5"),
        short("tabm 3"),
        short("w! \"a b\""),
        short("vert tab hor vert sp abcdefghijkl"),
        kind("255 times `tab `, then `q`", &[], "tab ".repeat(255) + "q"),
        short("3 q"),
        short("foo"),
        short("tabn q"),
        short("$+1close"),
    ];
    all.extend(aliased("4 bytes", Alike { bytes: 4, with: "z", end: false }));
    all.extend(aliased("24 bytes", Alike { bytes: 24, with: "z", end: false }));
    all.extend(aliased("24 bytes that end alike", Alike { bytes: 24, with: "z", end: true }));
    all.extend(aliased("4 bytes with symbols", Alike { bytes: 4, with: SYMBOLS, end: false }));
    all.extend(aliased("24 bytes with symbols", Alike { bytes: 24, with: SYMBOLS, end: false }));
    all.extend(SHAPES.iter().map(|shape| Kind {
        name: format!("1,024 bytes: {}", shape.name),
        aliases: Vec::new(),
        lines: vec![(shape.line)(1024)],
    }));
    all
}

/// How a line of a given length is made.
pub struct Shape {
    pub name: &'static str,
    pub line: fn(usize) -> String,
}

/// `start`, as many of `unit` as fit in `length` bytes, and `end`.
fn filled(start: &str, unit: &str, end: &str, length: usize) -> String {
    start.to_owned() + &unit.repeat((length - start.len() - end.len()) / unit.len()) + end
}

/// Lines that can be of any length.
pub const SHAPES: [Shape; 11] = [
    Shape { name: "a plain name", line: |n| filled("w ", "a", "", n) },
    Shape { name: "a quoted name", line: |n| filled("w \"", "a", "\"", n) },
    Shape { name: "a name of escapes", line: |n| filled("w ", "\\ ", "", n) },
    Shape { name: "a name of two-byte characters", line: |n| filled("w ", "é", "", n) },
    Shape { name: "a name of three-byte characters", line: |n| filled("w ", "€", "", n) },
    Shape { name: "names of one byte (5)", line: |n| filled("w ", "a ", "", n) },
    Shape { name: "prefixes", line: |n| filled("", "tab ", "q", n) },
    Shape { name: "spaces", line: |n| filled("", " ", "q", n) },
    Shape { name: "digits", line: |n| filled("", "0", "q", n) },
    Shape { name: "offsets", line: |n| filled("", "+1", "close", n) },
    Shape { name: "one unknown word (10)", line: |n| filled("", "a", "", n) },
];

/// The reference sheet.
const SHEET: &[u8] = include_bytes!("../../../crates/checklist/data/reference.sheet");

/// 20,000 lines of the reference sheet, in random order; those of more than 60 bytes, and those that are refused by 4 or 7, are left out.
pub fn sheet() -> Kind {
    let mut entry = Entry::fresh();
    let all: Vec<String> = SHEET
        .split(|b| *b == b'\n')
        .filter_map(|line| String::from_utf8(line.to_vec()).ok())
        .filter(|line| line.len() <= 60 && !matches!(entry.line(line).refusal, 4 | 7))
        .collect();
    let mut number: u64 = 7;
    let lines: Vec<String> = (0..20_000)
        .map(|_| {
            number = number.wrapping_mul(6364136223846793005).wrapping_add(1442695040888963407);
            all[(number >> 33) as usize % all.len()].clone()
        })
        .collect();

    let bytes: usize = lines.iter().map(String::len).sum();
    Kind {
        name: format!("20,000 lines of the reference sheet, {} bytes each", bytes / lines.len()),
        aliases: Vec::new(),
        lines,
    }
}

/// Random lines of a fresh session that `take` takes; those that are refused by 4 or 7, at which the Rust panics or wraps, are left out.
fn random(count: usize, take: fn(usize) -> bool) -> Vec<String> {
    let mut requests = Requests::new(7, Ops::Lines);
    let mut entry = Entry::fresh();
    let mut lines = Vec::new();

    while lines.len() < count {
        let (op, text) = requests.request();
        let Ok(line) = String::from_utf8(text) else { continue };

        if op == Op::Line && take(line.len()) && !matches!(entry.line(&line).refusal, 4 | 7) {
            lines.push(line);
        }
    }

    lines
}

/// Random lines: of up to 60 bytes, of 30 bytes, and some of these so often one after the other that the processor foresees what they do.
pub fn mixed() -> [Kind; 3] {
    let any = random(20_000, |bytes| bytes <= 60);
    let thirty = random(200_000, |bytes| bytes == 30);
    let often = thirty[..2_000].iter().flat_map(|line| vec![line.clone(); 20]).collect();
    let bytes: usize = any.iter().map(String::len).sum();

    [
        (format!("20,000 mixed lines, {} bytes each", bytes / any.len()), any),
        ("200,000 mixed lines, 30 bytes each".to_owned(), thirty),
        ("2,000 of these, each 20 times in a row".to_owned(), often),
    ]
    .map(|(name, lines)| Kind {
        name,
        aliases: Vec::new(),
        lines,
    })
}
