//! The words of a session, as the generator knows them.
use super::random::Random;
use crate::session::commands;

/// The bytes that words are made of.
pub const WORD_CHARACTERS: &str = "abcdefghijklmnopqrstuvwxyzABCDEFGHIJKLMNOPQRSTUVWXYZ#&*<=>@~";

/// The longest alias, and how many there may be.
const LONGEST_ALIAS: usize = 24;
const MOST_ALIASES: usize = 32;

/// The numbers of the commands that are prefixes, and that of the one whose range counts.
pub const PREFIXES: [usize; 5] = [TAB, 24, 25, 26, 27];
pub const TAB: usize = 13;

/// How often each command is taken: those that are never implemented, and those that ignore nearly
/// all they are given, less often than the others.
const WEIGHTS: [usize; 28] = [
    1, 1, 1, 1, 1, 5, 4, 5, 1, 8, 5, 5, 5, 2, 4, 6, 6, 6, 4, 5, 1, 1, 5, 1, 1, 1, 1, 1,
];

/// Shipped and added words with the numbers of their commands.
pub struct Words {
    shipped: Vec<(String, usize)>,
    added: Vec<(String, usize)>,
}

impl Words {
    pub fn new() -> Words {
        let mut shipped = Vec::new();

        for (number, command) in commands().into_iter().enumerate() {
            shipped.push((command.name, number));
            shipped.extend(command.aliases.into_iter().map(|alias| (alias, number)));
        }

        Words {
            shipped,
            added: Vec::new(),
        }
    }

    /// Forgets the added words.
    pub fn fresh(&mut self) {
        self.added.clear();
    }

    /// The command that a word leads to.
    pub fn lookup(&self, word: &str) -> Option<usize> {
        let mut words = self.added.iter().chain(&self.shipped);
        words
            .find(|(known, _)| known == word)
            .map(|(_, number)| *number)
    }

    /// A new alias and its command: one that may be added now.
    pub fn alias(&mut self, random: &mut Random) -> (String, usize) {
        let mut word = self.alias_word(random);

        if self.added.len() == MOST_ALIASES && !self.added.iter().any(|(known, _)| *known == word) {
            word.clone_from(&random.pick(&self.added).0);
        }

        let number = if random.percent(30) {
            *random.pick(&PREFIXES)
        } else {
            random.below(28)
        };
        self.add(&word, number);
        (word, number)
    }

    /// An alias that hides a shipped prefix word behind a command that is no prefix, while any is
    /// left and there is room.
    pub fn hiding_alias(&mut self, random: &mut Random) -> Option<(String, usize)> {
        if self.added.len() == MOST_ALIASES {
            return None;
        }

        let mut prefixes = self
            .shipped
            .iter()
            .filter(|(_, number)| PREFIXES.contains(number));
        let (word, _) = prefixes.find(|(word, _)| self.is_prefix(word))?;
        let word = word.clone();
        let number = random.below(TAB);
        self.add(&word, number);
        Some((word, number))
    }

    fn add(&mut self, word: &str, number: usize) {
        match self.added.iter_mut().find(|(known, _)| known == word) {
            Some((_, old)) => *old = number,
            None => self.added.push((word.to_owned(), number)),
        }
    }

    fn alias_word(&self, random: &mut Random) -> String {
        let word = match random.weighted(&[15, 30, 30, 10, 10, 5]) {
            0 => letters(random, 1, 1),
            1 => letters(random, 2, 3),
            2 => random.pick(&self.shipped).0.clone(),
            3 if !self.added.is_empty() => random.pick(&self.added).0.clone(),
            4 => self.neighbour(random),
            _ => letters(random, 4, LONGEST_ALIAS),
        };

        let fits = (1..=LONGEST_ALIAS).contains(&word.len());

        if fits && word.chars().all(|c| WORD_CHARACTERS.contains(c)) {
            word
        } else {
            letters(random, 1, 2)
        }
    }

    /// A word for a line: most often one that leads to a command.
    pub fn word(&self, random: &mut Random) -> String {
        match random.weighted(&[80, 4, 4, 2, 1, 2, 1]) {
            0 => self.known(random, |random| random.weighted(&WEIGHTS)),
            1 => self.truncated(random),
            2 => self.neighbour(random),
            3 => letters(random, 1, 6),
            4 => "!".to_owned(),
            5 => String::new(),
            _ => random.pick(&self.shipped).0.clone() + &random.pick(&self.shipped).0,
        }
    }

    /// A word that leads to a prefix, if any does.
    pub fn prefix(&self, random: &mut Random) -> String {
        for _ in 0..4 {
            let word = self.known(random, |random| *random.pick(&PREFIXES));

            if self.is_prefix(&word) {
                return word;
            }
        }

        self.known(random, |random| *random.pick(&PREFIXES))
    }

    /// The shortest word that leads to a prefix, if any does.
    pub fn shortest_prefix(&self) -> Option<&str> {
        let words = self
            .added
            .iter()
            .chain(&self.shipped)
            .map(|(word, _)| word.as_str());
        words
            .filter(|word| self.is_prefix(word))
            .min_by_key(|word| word.len())
    }

    fn is_prefix(&self, word: &str) -> bool {
        self.lookup(word)
            .is_some_and(|number| PREFIXES.contains(&number))
    }

    /// A shipped or added word of a command.
    fn known(&self, random: &mut Random, number: impl Fn(&mut Random) -> usize) -> String {
        if !self.added.is_empty() && random.percent(25) {
            return random.pick(&self.added).0.clone();
        }

        let number = number(random);
        let first = self.shipped.iter().position(|&(_, n)| n == number).unwrap();
        let words = self.shipped[first..]
            .iter()
            .take_while(|&&(_, n)| n == number)
            .count();

        self.shipped[first + random.below(words)].0.clone()
    }

    /// A shipped word without its end.
    fn truncated(&self, random: &mut Random) -> String {
        let word = &random.pick(&self.shipped).0;
        word[..random.below(word.len())].to_owned()
    }

    /// A shipped word with one byte more, less, or another.
    fn neighbour(&self, random: &mut Random) -> String {
        let mut word = random.pick(&self.shipped).0.clone();
        let at = random.below(word.len());
        let letter = random.letter(WORD_CHARACTERS);

        match random.below(5) {
            0 => word.push(letter),
            1 => word.insert(at, letter),
            2 => drop(word.remove(at)),
            3 => word.replace_range(at..=at, &letter.to_string()),
            _ => {
                let other = word[at..=at].chars().map(swap_case).collect::<String>();
                word.replace_range(at..=at, &other);
            }
        }

        word
    }
}

fn swap_case(c: char) -> char {
    if c.is_ascii_lowercase() {
        c.to_ascii_uppercase()
    } else {
        c.to_ascii_lowercase()
    }
}

/// A run of word characters.
fn letters(random: &mut Random, low: usize, high: usize) -> String {
    (0..random.within(low, high))
        .map(|_| random.letter(WORD_CHARACTERS))
        .collect()
}
