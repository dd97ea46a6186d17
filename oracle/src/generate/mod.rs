//! Streams of random requests, the same for the same seed.

mod lines;
mod lists;
mod pieces;
mod random;
mod ranges;
mod vector_text;
mod words;

use random::Random;
use words::Words;
#[cfg(test)]
pub use words::WORD_CHARACTERS;

use crate::vector::Op;

/// Which ops a stream has.
#[derive(Clone, Copy, Debug, Eq, PartialEq)]
pub enum Ops {
    /// Ops 0, 1 and 2: sessions, aliases and lines.
    Lines,
    /// Ops 3 to 7.
    Reading,
    /// Both in equal parts.
    All,
}

/// An endless stream of requests.
pub struct Requests {
    ops: Ops,
    random: Random,
    /// The words of the stream's session.
    words: Words,
    /// The words of a fresh session, for readings.
    shipped: Words,
    begun: bool,
    /// Aliases that are to be added before the next line, and whether they hide the prefixes.
    aliases_due: usize,
    hiding: bool,
}

impl Requests {
    pub fn new(seed: u64, ops: Ops) -> Requests {
        Requests {
            ops,
            random: Random::new(seed),
            words: Words::new(),
            shipped: Words::new(),
            begun: false,
            aliases_due: 0,
            hiding: false,
        }
    }

    /// The next request.
    pub fn request(&mut self) -> (Op, Vec<u8>) {
        let reading = match self.ops {
            Ops::Lines => false,
            Ops::Reading => true,
            Ops::All => self.random.percent(50),
        };

        if reading {
            let op = Op::ALL[self.random.within(3, 7)];
            (
                op,
                vector_text::text(&mut self.random, &self.shipped, op).into_bytes(),
            )
        } else {
            self.session_request()
        }
    }

    fn session_request(&mut self) -> (Op, Vec<u8>) {
        if !self.begun || self.random.once_in(100) {
            return self.fresh();
        }

        if self.aliases_due > 0 || self.random.once_in(25) {
            self.aliases_due = self.aliases_due.saturating_sub(1);
            return self.alias();
        }

        (
            Op::Line,
            vector_text::text(&mut self.random, &self.words, Op::Line).into_bytes(),
        )
    }

    /// Begins a session: most with few aliases, some with many, a few with all prefixes hidden.
    fn fresh(&mut self) -> (Op, Vec<u8>) {
        self.begun = true;
        self.words.fresh();
        self.hiding = false;
        self.aliases_due = match self.random.weighted(&[75, 20, 5]) {
            0 => 0,
            1 => self.random.within(1, 40),
            _ => {
                self.hiding = true;
                13
            }
        };

        (Op::Fresh, Vec::new())
    }

    fn alias(&mut self) -> (Op, Vec<u8>) {
        let hiding = if self.hiding {
            self.words.hiding_alias(&mut self.random)
        } else {
            None
        };
        let (word, number) = hiding.unwrap_or_else(|| self.words.alias(&mut self.random));
        let mut text = vec![number as u8];
        text.extend_from_slice(word.as_bytes());

        (Op::Alias, text)
    }
}
