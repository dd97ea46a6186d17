//! Why a call is refused.

/// Why a call is refused, by document 01's numbers.
///
/// [`Display`](std::fmt::Display) says each in a plain sentence.
///
/// ```
/// use pagyolint::{Refusal, Session};
///
/// let refused = Session::new().input_cmd("w a b").outcome.unwrap_err();
/// assert_eq!(refused.refusal, Refusal::InvalidArgument);
/// assert_eq!(refused.refusal.number(), 5);
/// assert_eq!(refused.refusal.to_string(), "the command does not take this argument");
/// ```
#[derive(Clone, Copy, Debug, PartialEq, Eq, PartialOrd, Ord, Hash)]
pub enum Refusal {
    /// 1: the line is above 1,024 bytes.
    LineTooLong = 1,
    /// 2: the line is not UTF-8 by RFC 3629.
    NotUtf8 = 2,
    /// 3: a line, list or range does not parse.
    ParseFailed = 3,
    /// 4: digits above 18446744073709551615.
    NumberTooLarge = 4,
    /// 5: an argument that the command does not take.
    InvalidArgument = 5,
    /// 6: a range that the command does not take.
    InvalidRange = 6,
    /// 7: a sum of offsets passes 18446744073709551615.
    SumTooLarge = 7,
    /// 8: the alias is not 1 to 24 word characters, which are ASCII letters and `#&*<=>@~`.
    BadAlias = 8,
    /// 9: the command's number is above 27.
    BadCommand = 9,
    /// 10: no command has the word; [`Refused::word`](crate::Refused::word) has it.
    UnknownWord = 10,
    /// 11: `!`, `&`, read, print and substitute.
    Unimplemented = 11,
    /// 12: the store is shorter than the line and 40. A [`Session`](crate::Session) lends a store that is long enough, so that no
    /// call of this crate is refused by it.
    StoreTooShort = 12,
    /// 13: a new alias when 32 are there.
    AliasesFull = 13,
    /// 99: bytes of another length than a session's, or that no session is written as.
    NotASession = 99,
}

impl Refusal {
    /// All refusals, by their numbers.
    pub const ALL: [Refusal; 14] = [
        Refusal::LineTooLong,
        Refusal::NotUtf8,
        Refusal::ParseFailed,
        Refusal::NumberTooLarge,
        Refusal::InvalidArgument,
        Refusal::InvalidRange,
        Refusal::SumTooLarge,
        Refusal::BadAlias,
        Refusal::BadCommand,
        Refusal::UnknownWord,
        Refusal::Unimplemented,
        Refusal::StoreTooShort,
        Refusal::AliasesFull,
        Refusal::NotASession,
    ];

    /// Document 01's number.
    pub fn number(self) -> u64 {
        self as u64
    }

    /// The refusal that has the number.
    ///
    /// ```
    /// use pagyolint::Refusal;
    ///
    /// assert_eq!(Refusal::from_number(10), Some(Refusal::UnknownWord));
    /// assert_eq!(Refusal::from_number(0), None);
    /// ```
    pub fn from_number(number: u64) -> Option<Refusal> {
        Refusal::ALL
            .into_iter()
            .find(|refusal| refusal.number() == number)
    }

    /// What a call answers with: 0 where it is not refused.
    pub(crate) fn check(number: u64) -> Result<(), Refusal> {
        match number {
            0 => Ok(()),
            _ => Err(Refusal::from_number(number).expect("a call answers one of these numbers")),
        }
    }
}

impl std::error::Error for Refusal {}
