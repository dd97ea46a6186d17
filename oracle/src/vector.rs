//! Vectors: a request (op, text) and its answer, as they stand in a stream.
use std::io::{self, ErrorKind, Read, Write};

/// The longest text of document 01's comparison domain.
pub const LONGEST: usize = 1_024;

/// What a vector asks.
#[derive(Clone, Copy, Debug, Eq, PartialEq)]
pub enum Op {
    Fresh,
    Alias,
    Line,
    Range,
    Filenames,
    Strings,
    Options,
    Reading,
}

impl Op {
    /// All ops, each at the place of its byte.
    pub const ALL: [Op; 8] = [
        Op::Fresh,
        Op::Alias,
        Op::Line,
        Op::Range,
        Op::Filenames,
        Op::Strings,
        Op::Options,
        Op::Reading,
    ];

    /// The op that a byte stands for.
    pub fn from_byte(byte: u8) -> io::Result<Op> {
        Op::ALL
            .get(usize::from(byte))
            .copied()
            .ok_or_else(|| bad(format!("no op {byte}")))
    }
}

/// Reads the next op; nothing at the end of the stream.
pub fn read_op(from: &mut impl Read) -> io::Result<Option<Op>> {
    let mut byte = [0];

    match from.read_exact(&mut byte) {
        Ok(()) => Op::from_byte(byte[0]).map(Some),
        Err(e) if e.kind() == ErrorKind::UnexpectedEof => Ok(None),
        Err(e) => Err(e),
    }
}

/// Reads a length and so many bytes: a text or an answer.
pub fn read_part(from: &mut impl Read, part: &mut Vec<u8>) -> io::Result<()> {
    let mut length = [0; 2];
    from.read_exact(&mut length)?;
    part.resize(u16::from_le_bytes(length).into(), 0);
    from.read_exact(part)
}

/// Writes a vector.
pub fn write(to: &mut impl Write, op: Op, text: &[u8], answer: &[u8]) -> io::Result<()> {
    to.write_all(&[op as u8])?;
    write_part(to, text)?;
    write_part(to, answer)
}

fn write_part(to: &mut impl Write, part: &[u8]) -> io::Result<()> {
    let length = u16::try_from(part.len()).map_err(|_| bad("part too long".into()))?;
    to.write_all(&length.to_le_bytes())?;
    to.write_all(part)
}

/// Takes a number in the record's form from the front of an answer.
pub fn take_number(answer: &mut &[u8]) -> io::Result<u64> {
    let mut n = 0;

    for shift in (0..64).step_by(7) {
        let (&byte, rest) = answer
            .split_first()
            .ok_or_else(|| bad("answer too short".into()))?;
        *answer = rest;
        n |= u64::from(byte & 0x7f) << shift;

        if byte < 0x80 {
            return Ok(n);
        }
    }

    Err(bad("number too long".into()))
}

/// An error about what a stream holds.
pub fn bad(message: String) -> io::Error {
    io::Error::new(ErrorKind::InvalidData, message)
}
