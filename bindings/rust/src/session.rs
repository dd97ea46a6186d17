//! A session, and what its calls answer.
use crate::action::Action;
use crate::record;
use crate::refusal::Refusal;
use crate::sys;
use std::fmt;
use std::hash::{Hash, Hasher};

/// A session is as long as this in bytes.
pub const SESSION_BYTES: usize = 1851;

/// A line has at most so many bytes.
pub const LINE_BYTES: usize = 1024;

/// A store of so many bytes is enough for every line.
pub(crate) const STORE_BYTES: usize = LINE_BYTES + 40;

/// Where the remembered line and the table of the added aliases stand in a session's bytes, and how many words the table has room
/// for: docs/SESSION-BYTES.md.
pub(crate) const LINE: usize = 2;
pub(crate) const ADDED: usize = LINE + LINE_BYTES;
const ALIASES: usize = 32;

/// A table has a count for each length of a word.
const LENGTHS: usize = 24;

/// The used bytes of a table at a place, with room for so many words: its number and counts, its commands, its words.
fn table(bytes: &[u8], at: usize, room: usize) -> [&[u8]; 3] {
    let number = usize::from(bytes[at]);

    if number == 0 {
        return [&bytes[at..at + 1], &[], &[]];
    }

    let (head, rest) = bytes[at..].split_at(1 + LENGTHS);
    let (commands, words) = rest.split_at(room);
    let lengths = head[1..].iter().zip(1..);
    let end = lengths
        .map(|(&count, length)| usize::from(count) * length)
        .sum();
    [head, &commands[..number], &words[..end]]
}

/// A session: its added aliases, and the line that it remembers. It owns its bytes.
///
/// ```
/// use pagyolint::{Command, Session};
///
/// let mut session = Session::new();
/// session.add_alias("v", Command::Vertical)?;
/// let answer = session.input_cmd("v 3sp a");
/// assert_eq!(answer.readings, 2);
/// assert_eq!(answer.outcome?.to_string(), r#"open "a", on the left, width 3"#);
/// assert_eq!(session.last_command(), "v 3sp a");
/// # Ok::<(), Box<dyn std::error::Error>>(())
/// ```
///
/// Two sessions are equal if they have the same added aliases, whatever was added first, and remember the same line. So their used
/// bytes are compared and hashed, and the free ones are not: docs/SESSION-BYTES.md says which are free, and why this is the same.
#[derive(Clone)]
pub struct Session {
    /// Bytes that are taken as a session: a fresh one's, or checked by [`Session::from_bytes`]. Every call keeps that.
    bytes: [u8; SESSION_BYTES],
}

impl Session {
    /// A fresh session: it remembers the empty line and has no added alias.
    pub fn new() -> Session {
        let mut bytes = [0; SESSION_BYTES];
        let number = sys::fresh(&mut bytes);
        debug_assert_eq!(number, 0);
        Session { bytes }
    }

    /// The session that the bytes are taken as.
    ///
    /// ```
    /// use pagyolint::{Refusal, Session, SESSION_BYTES};
    ///
    /// let mut session = Session::new();
    /// session.input_cmd("q");
    /// assert_eq!(Session::from_bytes(session.as_bytes()), Ok(session));
    /// assert_eq!(Session::from_bytes(&[0xff; SESSION_BYTES]), Err(Refusal::NotASession));
    /// ```
    ///
    /// # Errors
    ///
    /// [`Refusal::NotASession`] if there are not [`SESSION_BYTES`] of them, or no session is written as them.
    pub fn from_bytes(bytes: &[u8]) -> Result<Session, Refusal> {
        Refusal::check(sys::remembered(bytes, &mut [0; LINE_BYTES]).refusal)?;
        let bytes = bytes.try_into().map_err(|_| Refusal::NotASession)?;
        Ok(Session { bytes })
    }

    /// The session's bytes. Those that are free may be of any value: what is left of longer lines, among others.
    pub fn as_bytes(&self) -> &[u8; SESSION_BYTES] {
        &self.bytes
    }

    /// Adds an alias for a command, or replaces the one with this word. The command is a [`Command`](crate::Command) or its number.
    ///
    /// ```
    /// use pagyolint::{Command, Refusal, Session};
    ///
    /// let mut session = Session::new();
    /// assert_eq!(session.add_alias("v", Command::Vertical), Ok(()));
    /// assert_eq!(session.add_alias("v", 24u64), Ok(()));
    /// assert_eq!(session.add_alias("v", 28u64), Err(Refusal::BadCommand));
    /// assert_eq!(session.add_alias("v!", Command::View), Err(Refusal::BadAlias));
    /// ```
    ///
    /// # Errors
    ///
    /// The first of [`Refusal::BadAlias`], [`Refusal::BadCommand`] and [`Refusal::AliasesFull`] that holds; the session is then as
    /// before.
    pub fn add_alias(
        &mut self,
        word: impl AsRef<[u8]>,
        command: impl Into<u64>,
    ) -> Result<(), Refusal> {
        Refusal::check(sys::alias(&mut self.bytes, word.as_ref(), command.into()))
    }

    /// Runs a line, which may be any bytes.
    ///
    /// The line is remembered if it has at most [`LINE_BYTES`] and is UTF-8, even where it is then refused.
    ///
    /// ```
    /// use pagyolint::{Refusal, Session};
    ///
    /// let mut session = Session::new();
    /// let refused = session.input_cmd("foo").outcome.unwrap_err();
    /// assert_eq!(refused.refusal, Refusal::UnknownWord);
    /// assert_eq!(refused.word.as_deref(), Some("foo"));
    /// assert_eq!(session.input_cmd(b"q \xff").refusal(), Some(Refusal::NotUtf8));
    /// assert_eq!(session.last_command(), "foo");
    /// ```
    pub fn input_cmd(&mut self, line: impl AsRef<[u8]>) -> Answer {
        let mut store = [0; STORE_BYTES];
        let reply = sys::line(&mut self.bytes, line.as_ref(), &mut store);
        let written = &store[..reply.count as usize];

        let outcome = match Refusal::check(reply.refusal) {
            Ok(()) => Ok(Accepted {
                action: Action::from_record(written).expect("an accepted line writes a record"),
                record: written.to_vec(),
            }),
            Err(refusal) => Err(Refused {
                refusal,
                word: match refusal {
                    Refusal::UnknownWord => {
                        Some(record::name(written).expect("10 writes its word"))
                    }
                    _ => None,
                },
            }),
        };

        Answer {
            readings: reply.readings,
            outcome,
        }
    }

    /// The line that is remembered; modalkit's `get_last_command`.
    pub fn last_command(&self) -> String {
        let mut store = [0; LINE_BYTES];
        let reply = sys::remembered(&self.bytes, &mut store);
        debug_assert_eq!(reply.refusal, 0);
        let line = store[..reply.count as usize].to_vec();
        String::from_utf8(line).expect("a session remembers UTF-8 only")
    }

    /// The bytes that are used: the line with its length, and those of the table of aliases.
    fn used(&self) -> [&[u8]; 4] {
        let length = usize::from(u16::from_le_bytes([self.bytes[0], self.bytes[1]]));
        let [head, commands, words] = table(&self.bytes, ADDED, ALIASES);
        [&self.bytes[..LINE + length], head, commands, words]
    }

    /// The added aliases and their commands' numbers, in the order of the table.
    fn aliases(&self) -> Vec<(&str, u8)> {
        let [head, commands, mut words] = table(&self.bytes, ADDED, ALIASES);
        let counts = head[1..].iter().zip(1..);
        let lengths = counts.flat_map(|(&count, length)| vec![length; usize::from(count)]);
        let rows = lengths.zip(commands).map(|(length, &command)| {
            let (word, rest) = words.split_at(length);
            words = rest;
            (std::str::from_utf8(word).expect("a word is ASCII"), command)
        });
        rows.collect()
    }
}

impl Default for Session {
    fn default() -> Session {
        Session::new()
    }
}

impl PartialEq for Session {
    fn eq(&self, other: &Session) -> bool {
        self.used() == other.used()
    }
}

impl Eq for Session {}

impl Hash for Session {
    fn hash<H: Hasher>(&self, state: &mut H) {
        self.used().hash(state);
    }
}

impl fmt::Debug for Session {
    fn fmt(&self, f: &mut fmt::Formatter<'_>) -> fmt::Result {
        f.debug_struct("Session")
            .field("last_command", &self.last_command())
            .field("aliases", &self.aliases())
            .finish()
    }
}

/// What a line answers.
///
/// [`Display`](std::fmt::Display) says it as the console's reports do.
///
/// ```
/// use pagyolint::Session;
///
/// let mut session = Session::new();
/// assert_eq!(session.input_cmd("+5-3close").to_string(), "close window previous 2");
/// assert_eq!(session.input_cmd("foo").to_string(), r#"no command has this word: "foo""#);
/// assert_eq!(
///     session.input_cmd("vert %close").to_string(),
///     "the command does not take this range, in reading 2"
/// );
/// ```
#[derive(Clone, Debug, PartialEq, Eq)]
pub struct Answer {
    /// How many readings were begun: one on the line, and one on the argument of each prefix accepted in it. It is 0 for a line
    /// that is too long or not UTF-8.
    pub readings: u64,
    /// What the line does, or why it is refused.
    pub outcome: Result<Accepted, Refused>,
}

impl Answer {
    /// The action; none where the line does nothing or is refused.
    pub fn action(&self) -> Option<&Action> {
        self.outcome.as_ref().ok()?.action.as_ref()
    }

    /// The refusal; none where the line is accepted.
    pub fn refusal(&self) -> Option<Refusal> {
        Some(self.outcome.as_ref().err()?.refusal)
    }
}

/// What an accepted line does.
#[derive(Clone, Debug, PartialEq, Eq, Hash)]
pub struct Accepted {
    /// The action; none where the line does nothing.
    pub action: Option<Action>,
    /// The record, from which the action was read: the bytes that the line wrote.
    pub record: Vec<u8>,
}

/// Why a line is refused.
#[derive(Clone, Debug, PartialEq, Eq, Hash)]
pub struct Refused {
    /// The refusal.
    pub refusal: Refusal,
    /// The word that no command has, for [`Refusal::UnknownWord`] and no other.
    pub word: Option<String>,
}

impl std::error::Error for Refused {}
