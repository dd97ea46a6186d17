//! The vectors' form, the marks, and the streams that are made.
use super::*;
use crate::exhaustive::{each, unescape};
use crate::generate::{Ops, Requests, WORD_CHARACTERS};
use crate::record::number;
use crate::session::commands;
use crate::source::NAMES;
use crate::tasks::{answer_all, Answers};
use crate::vector::{take_number, LONGEST};

#[test]
fn shipped_words() {
    let commands = commands();
    let aliases: usize = commands.iter().map(|command| command.aliases.len()).sum();
    let mut words: Vec<_> = commands
        .iter()
        .flat_map(|command| command.aliases.clone())
        .collect();
    words.extend(NAMES.map(String::from));
    words.sort();
    words.dedup();

    assert_eq!((commands.len(), aliases, words.len()), (28, 42, 68));
    assert_eq!((NAMES[0], NAMES[13], NAMES[27]), ("!", "tab", "belowright"));
}

#[test]
fn numbers() {
    for (n, bytes) in [
        (0, &[0][..]),
        (127, &[0x7f]),
        (128, &[0x80, 1]),
        (300, &[0xac, 2]),
        (16_384, &[0x80, 0x80, 1]),
        (
            u64::MAX,
            &[0xff, 0xff, 0xff, 0xff, 0xff, 0xff, 0xff, 0xff, 0xff, 1],
        ),
    ] {
        let mut written = Vec::new();
        number(&mut written, n);
        assert_eq!(written, bytes);
        assert_eq!(take_number(&mut written.as_slice()).unwrap(), n);
    }
}

#[test]
fn ranges() {
    assert_eq!(answer(Op::Range, "+"), [0, 0, 0, 1, 0, 1]);
    assert_eq!(answer(Op::Range, "7-+2"), [0, 0, 1, 7, 2, 1, 1, 0, 2]);
    assert_eq!(answer(Op::Range, ","), [0, 1, 0, 0, 0, 0, 0]);
    assert_eq!(answer(Op::Range, ".;$-3"), [0, 1, 2, 0, 4, 1, 1, 3, 1]);
    assert_eq!(answer(Op::Range, "%,\\&"), [0, 1, 3, 0, 7, 0, 0]);
    assert_eq!(answer(Op::Range, "\\/;\\?"), [0, 1, 5, 0, 6, 0, 1]);
    assert_eq!(answer(Op::Range, "O"), [4]);
}

#[test]
fn marks() {
    for byte in 0..128u8 {
        let text = format!("'{}", byte as char);
        let expected = match byte {
            b'a'..=b'z' | b'A'..=b'Z' | b'0'..=b'9' => vec![0, 0, 8, byte, 0],
            b'<' | b'>' | b'[' | b']' | b'\'' | b'^' | b'.' | b'"' => vec![0, 0, 8, byte, 0],
            b'`' => vec![0, 0, 8, b'\'', 0],
            _ => vec![3],
        };
        let mut given = Vec::new();
        Oracle::new()
            .answer(Op::Range, text.as_bytes(), &mut given)
            .unwrap();
        assert_eq!(given, expected, "{text:?}");
    }
}

#[test]
fn readings() {
    assert_eq!(
        answer(Op::Reading, " : 3vert! a b\n"),
        *b"\0\x01\0\x01\x03\0\x04vert\x01\x03a b"
    );
    assert_eq!(answer(Op::Reading, ""), [0, 0, 0, 0, 0]);
    assert_eq!(answer(Op::Reading, "3 q"), [3]);
    assert_eq!(answer(Op::Reading, "Oq"), [4]);
}

#[test]
fn lines_with_remembered_line() {
    assert_eq!(answer(Op::Line, "foo"), *b"\x0a\x01\x03foo\x03foo");
    assert_eq!(answer(Op::Line, "q"), *b"\0\x01\x01\0\0\x01\x01q");
    assert_eq!(answer(Op::Line, "O")[..3], [4, 1, 20]);
}

#[test]
fn texts_outside_the_domain() {
    let mut out = Vec::new();
    assert!(Oracle::new().answer(Op::Line, b"\xff", &mut out).is_err());
    assert!(Oracle::new()
        .answer(Op::Line, &[b'a'; LONGEST + 1], &mut out)
        .is_err());
    assert!(Oracle::new().answer(Op::Alias, b"\x1cx", &mut out).is_err());
    assert!(Oracle::new().answer(Op::Alias, b"", &mut out).is_err());
    assert!(out.is_empty());
}

#[test]
fn random_streams_repeat_and_stay_in_the_domain() {
    for ops in [Ops::Lines, Ops::Reading, Ops::All] {
        let (mut one, mut same, mut other) = (
            Requests::new(7, ops),
            Requests::new(7, ops),
            Requests::new(8, ops),
        );
        let mut oracle = Oracle::new();
        let mut differ = 0;

        for _ in 0..20_000 {
            let request = one.request();
            assert_eq!(request, same.request());
            differ += u32::from(request != other.request());
            oracle
                .answer(request.0, &request.1, &mut Vec::new())
                .unwrap();
        }

        assert!(differ > 10_000);
    }
}

#[test]
fn streams_are_answered_in_order() {
    let (mut requests, mut expected) = (Vec::new(), Vec::new());
    let mut random = Requests::new(3, Ops::All);
    let mut answers = Answers::new(&mut expected);

    for _ in 0..5_000 {
        let (op, text) = random.request();
        answers.write(op, &text).unwrap();
        requests.push(op as u8);
        requests.extend((text.len() as u16).to_le_bytes());
        requests.extend(text);
    }

    let mut given = Vec::new();
    answer_all(&mut requests.as_slice(), &mut given).unwrap();
    assert!(given == expected);

    // A request that is cut off is an error.
    requests.pop();
    assert!(answer_all(&mut requests.as_slice(), &mut Vec::new()).is_err());
}

#[test]
fn random_aliases_stay_in_the_domain() {
    let mut requests = Requests::new(1, Ops::Lines);
    let mut words = Vec::new();
    let mut most = 0;

    for _ in 0..200_000 {
        match requests.request() {
            (Op::Fresh, _) => words.clear(),
            (Op::Alias, text) => {
                let word = text[1..].to_vec();
                assert!(text[0] < 28 && (1..=24).contains(&word.len()));
                assert!(word.iter().all(|b| WORD_CHARACTERS.as_bytes().contains(b)));

                if !words.contains(&word) {
                    words.push(word);
                }

                most = most.max(words.len());
            }
            _ => {}
        }
    }

    assert_eq!(most, 32);
}

#[test]
fn exhaustive_texts() {
    let mut texts = Vec::new();
    each(b"ab", 2, |text| {
        texts.push(text.to_vec());
        Ok::<_, ()>(())
    })
    .unwrap();

    let expected: [&[u8]; 7] = [b"", b"a", b"b", b"aa", b"ab", b"ba", b"bb"];
    assert_eq!(texts, expected);
    assert_eq!(
        unescape("a\\n\\t\\r\\\\\\x5c\\xC3").unwrap(),
        b"a\n\t\r\\\\\xc3"
    );
    assert_eq!(unescape("\\"), None);
    assert_eq!(unescape("\\q"), None);
}
