//! The vectors that the repository replays (oracle/README.md, "Vectors"), through the types of this crate.
use pagyolint::{Action, Refusal, Session};
use std::collections::{HashMap, HashSet};
use std::path::{Path, PathBuf};

struct Vector {
    op: u8,
    text: Vec<u8>,
    answer: Vec<u8>,
}

fn replay(file: &str) -> PathBuf {
    Path::new(env!("CARGO_MANIFEST_DIR"))
        .join("../../crates/replay")
        .join(file)
}

/// All vectors of the stream.
fn vectors() -> Vec<Vector> {
    let stream = std::fs::read(replay("stdin")).expect("the stream of vectors is there");
    let mut rest = &stream[..];
    let mut vectors = Vec::new();

    while let Some((&op, behind)) = rest.split_first() {
        let (text, behind) = part(behind);
        let (answer, behind) = part(behind);
        rest = behind;
        vectors.push(Vector { op, text, answer });
    }

    vectors
}

/// A length in two bytes, low byte first, and so many bytes; and what is behind them.
fn part(bytes: &[u8]) -> (Vec<u8>, &[u8]) {
    let end = 2 + pair(bytes);
    (bytes[2..end].to_vec(), &bytes[end..])
}

fn pair(bytes: &[u8]) -> usize {
    usize::from(u16::from_le_bytes([bytes[0], bytes[1]]))
}

fn number(out: &mut Vec<u8>, mut n: u64) {
    while n >= 0x80 {
        out.push(n as u8 | 0x80);
        n >>= 7;
    }

    out.push(n as u8);
}

fn name(out: &mut Vec<u8>, text: &str) {
    number(out, text.len() as u64);
    out.extend_from_slice(text.as_bytes());
}

/// Refusal or 0, readings, and what the line wrote; and how many bytes it wrote.
fn run(session: &mut Session, line: &[u8]) -> (Vec<u8>, u64) {
    let answer = session.input_cmd(line);
    let mut out = Vec::new();
    number(&mut out, answer.refusal().map_or(0, Refusal::number));
    number(&mut out, answer.readings);
    let before = out.len();

    match answer.outcome {
        Ok(accepted) => out.extend_from_slice(&accepted.record),
        Err(refused) => {
            if let Some(word) = refused.word {
                name(&mut out, &word);
            }
        }
    }

    let written = out.len() - before;
    (out, written as u64)
}

/// What a vector asks, answered as the oracle writes it. None where this crate has no call for it: the readings called alone, and
/// lines with a store that is too short.
fn answered(session: &mut Session, vector: &Vector) -> Option<Vec<u8>> {
    let text = &vector.text;
    let mut out = Vec::new();

    match vector.op {
        0 => *session = Session::new(),
        1 => {
            let added = session.add_alias(&text[1..], text[0]);
            number(&mut out, added.map_or_else(Refusal::number, |()| 0));
        }
        2 => {
            out = run(session, text).0;
            name(&mut out, &session.last_command());
        }
        3..=7 => return None,
        8 => {
            let (size, line) = (pair(text), &text[2..]);

            // Refusal 1 comes before 12.
            if size < line.len() + 40 && line.len() <= 1024 {
                assert_eq!(u64::from(vector.answer[0]), Refusal::StoreTooShort.number());
                return None;
            }

            let (begun, written) = run(session, line);
            out = begun;
            number(&mut out, 2048 - written);
            name(&mut out, &session.last_command());
        }
        9 => {
            let mut bytes = *session.as_bytes();
            bytes[pair(text)] = text[2];

            match Session::from_bytes(&bytes) {
                Ok(other) => {
                    number(&mut out, 0);
                    name(&mut out, &other.last_command());
                }
                Err(refusal) => number(&mut out, refusal.number()),
            }
        }
        op => panic!("no op {op}"),
    }

    Some(out)
}

#[test]
fn every_vector_of_the_session_agrees() {
    let mut session = Session::new();
    let mut agreed = [0; 10];
    let mut left = [0; 10];

    for (place, vector) in vectors().iter().enumerate() {
        let op = usize::from(vector.op);

        match answered(&mut session, vector) {
            Some(answer) => {
                assert_eq!(answer, vector.answer, "vector {place}, op {op}");
                agreed[op] += 1;
            }
            None => left[op] += 1,
        }
    }

    let all: u64 = agreed.iter().chain(&left).sum();
    println!("vectors that agree, by op: {agreed:?}; not of this crate: {left:?}; all: {all}");

    // The program `replay` runs as many.
    let stdout = std::fs::read_to_string(replay("stdout")).unwrap();
    assert_eq!(stdout, format!("{all} of {all} agree\n"));

    for op in [0, 1, 2, 8, 9] {
        assert!(agreed[op] > 10, "op {op}");
    }
}

/// The records of all accepted lines. The answer is class 0, readings, record, and the line as a name.
fn records() -> HashSet<Vec<u8>> {
    vectors()
        .into_iter()
        .filter(|vector| vector.op == 2 && vector.answer[0] == 0)
        .map(|vector| {
            let readings = 1 + vector.answer[1..]
                .iter()
                .take_while(|b| **b >= 0x80)
                .count();
            let count = if vector.text.len() < 0x80 { 1 } else { 2 };
            let end = vector.answer.len() - vector.text.len() - count;
            assert!(vector.answer.ends_with(&vector.text));
            vector.answer[1 + readings..end].to_vec()
        })
        .collect()
}

#[test]
fn every_record_is_read() {
    let mut words = HashMap::new();
    let mut kinds = [0; 11];

    for record in records() {
        let action = Action::from_record(&record).expect("a record");
        assert_eq!(action.is_none(), record == [0]);
        kinds[usize::from(record[0])] += 1;

        // No two of them have the same words.
        let said = action.map_or("nothing".into(), |action| action.to_string());
        if let Some(other) = words.insert(said, record.clone()) {
            panic!("{record:?} and {other:?} have the same words");
        }
    }

    println!("different records, by kind: {kinds:?}");
    assert!(kinds.iter().all(|count| *count > 0), "{kinds:?}");
}

#[test]
fn no_record_goes_on_or_stops_earlier_or_has_a_longer_form() {
    let mut tried = 0;

    for record in records().iter().filter(|record| record.len() <= 64) {
        for place in 0..record.len() {
            assert!(Action::from_record(&record[..place]).is_err());

            // A number's last group, made the first of two. In a name this leaves no UTF-8.
            if record[place] < 0x80 {
                let mut longer = record.clone();
                longer[place] |= 0x80;
                longer.insert(place + 1, 0);
                assert!(Action::from_record(&longer).is_err(), "{longer:?}");
            }

            tried += 1;
        }

        for byte in 0..=255 {
            let longer = [&record[..], &[byte]].concat();
            assert!(Action::from_record(&longer).is_err(), "{longer:?}");
        }
    }

    assert!(tried > 10_000, "{tried}");
}
