//! Every call on a session, and every refusal that a caller can meet.
use pagyolint::{Accepted, Command, Refusal, Refused, Session, LINE_BYTES, SESSION_BYTES};
use std::collections::hash_map::DefaultHasher;
use std::collections::BTreeSet;
use std::hash::{Hash, Hasher};

fn refusal(session: &mut Session, line: &[u8]) -> Refusal {
    let answer = session.input_cmd(line);
    answer.refusal().expect("the line is refused")
}

fn record(session: &mut Session, line: &str) -> Vec<u8> {
    let answer = session.input_cmd(line);
    answer.outcome.expect("the line is accepted").record
}

fn hash(session: &Session) -> u64 {
    let mut hasher = DefaultHasher::new();
    session.hash(&mut hasher);
    hasher.finish()
}

/// Words of two letters: 32 of them, and more.
fn word(place: usize) -> String {
    let letter = |n: usize| char::from(b'a' + n as u8);
    [letter(place / 8), letter(place % 8)].iter().collect()
}

#[test]
fn a_fresh_session_remembers_the_empty_line() {
    let session = Session::new();
    assert_eq!(session.last_command(), "");
    assert_eq!(session.as_bytes()[..2], [0; 2]);
    assert_eq!(session.as_bytes()[1026], 0);
    assert_eq!(session, Session::default());
}

#[test]
fn every_refusal_that_a_caller_can_meet() {
    let mut session = Session::new();
    let big = "18446744073709551615";
    let mut met = BTreeSet::new();

    for (line, expected) in [
        (
            "q".repeat(LINE_BYTES + 1).into_bytes(),
            Refusal::LineTooLong,
        ),
        (b"q \xff".to_vec(), Refusal::NotUtf8),
        (b"3 q".to_vec(), Refusal::ParseFailed),
        (b"18446744073709551616q".to_vec(), Refusal::NumberTooLarge),
        (b"w a b".to_vec(), Refusal::InvalidArgument),
        (b"%close".to_vec(), Refusal::InvalidRange),
        (format!("+{big}+1q").into_bytes(), Refusal::SumTooLarge),
        (b"foo".to_vec(), Refusal::UnknownWord),
        (b"!ls".to_vec(), Refusal::Unimplemented),
    ] {
        assert_eq!(refusal(&mut session, &line), expected);
        met.insert(expected);
    }

    assert_eq!(session.add_alias("", 0u64), Err(Refusal::BadAlias));
    assert_eq!(session.add_alias("a", 28u64), Err(Refusal::BadCommand));

    for place in 0..32 {
        assert_eq!(session.add_alias(word(place), Command::Quit), Ok(()));
    }

    assert_eq!(
        session.add_alias(word(32), Command::Quit),
        Err(Refusal::AliasesFull)
    );
    assert_eq!(Session::from_bytes(&[]), Err(Refusal::NotASession));
    met.extend([
        Refusal::BadAlias,
        Refusal::BadCommand,
        Refusal::AliasesFull,
        Refusal::NotASession,
    ]);

    // A session's own store is never too short.
    let mut all = BTreeSet::from(Refusal::ALL);
    all.remove(&Refusal::StoreTooShort);
    assert_eq!(met, all);
}

#[test]
fn readings_are_counted() {
    let mut session = Session::new();

    for (line, readings) in [
        ("", 1),
        ("q", 1),
        ("vert", 2),
        ("vert sp", 2),
        ("tab vert abo sp", 4),
        ("vert foo", 2),
        ("vert !", 2),
        ("foo", 1),
    ] {
        assert_eq!(session.input_cmd(line).readings, readings, "{line}");
    }

    assert_eq!(session.input_cmd(b"\xff").readings, 0);
    assert_eq!(session.input_cmd([b' '; LINE_BYTES + 1]).readings, 0);
    assert_eq!(session.input_cmd("tab ".repeat(256)).readings, 257);
    session.add_alias("v", Command::Vertical).unwrap();
    assert_eq!(session.input_cmd("v ".repeat(512)).readings, 513);
}

#[test]
fn a_line_is_remembered_unless_too_long_or_not_utf8() {
    let mut session = Session::new();

    for line in ["q", "3 q", "foo", "!", "w \u{e4}\u{6f22}", ""] {
        session.input_cmd(line);
        assert_eq!(session.last_command(), line);
    }

    let longest = "q".repeat(LINE_BYTES);
    assert_eq!(
        refusal(&mut session, longest.as_bytes()),
        Refusal::UnknownWord
    );
    assert_eq!(session.last_command(), longest);

    let before = session.clone();
    refusal(&mut session, "q".repeat(LINE_BYTES + 1).as_bytes());
    refusal(&mut session, b"q \xff");
    assert_eq!(session, before);
    assert_eq!(session.as_bytes(), before.as_bytes());
}

#[test]
fn a_line_may_be_any_bytes() {
    let mut session = Session::new();
    let close = [1, 0, 0, 1];
    assert_eq!(record(&mut session, "q"), close);
    assert_eq!(session.input_cmd(String::from("q")).refusal(), None);
    assert_eq!(session.input_cmd(b"q").refusal(), None);
    assert_eq!(session.input_cmd(vec![b'q']).refusal(), None);
    assert_eq!(session.input_cmd(&[b'q'][..]).refusal(), None);
}

#[test]
fn the_unknown_word_is_told_and_only_it() {
    let mut session = Session::new();
    let refused = |refusal, word: Option<&str>| {
        let word = word.map(String::from);
        Err(Refused { refusal, word })
    };

    assert_eq!(
        session.input_cmd("vert f#o a").outcome,
        refused(Refusal::UnknownWord, Some("f#o"))
    );
    assert_eq!(
        session.input_cmd("q".repeat(LINE_BYTES)).outcome,
        refused(Refusal::UnknownWord, Some(&"q".repeat(LINE_BYTES)))
    );
    assert_eq!(
        session.input_cmd("3 q").outcome,
        refused(Refusal::ParseFailed, None)
    );
    let nothing = Accepted {
        action: None,
        record: vec![0],
    };
    assert_eq!(session.input_cmd("3").outcome, Ok(nothing));
}

#[test]
fn aliases_are_checked_in_order() {
    let mut session = Session::new();
    let longest = "abcdefghijklmnopqrstuvwx";
    assert_eq!(session.add_alias("!", 28u64), Err(Refusal::BadAlias));
    assert_eq!(session.add_alias("a b", 0u64), Err(Refusal::BadAlias));
    assert_eq!(session.add_alias(b"\xff", 0u64), Err(Refusal::BadAlias));
    assert_eq!(
        session.add_alias(format!("{longest}y"), 0u64),
        Err(Refusal::BadAlias)
    );
    assert_eq!(
        session.add_alias(longest, u64::MAX),
        Err(Refusal::BadCommand)
    );
    assert_eq!(session, Session::new());
    assert_eq!(session.add_alias(longest, 27u64), Ok(()));
    assert_ne!(session, Session::new());
    assert_eq!(
        record(&mut session, &format!("{longest} sp")),
        record(&mut Session::new(), "belowright sp")
    );
}

#[test]
fn thirty_two_aliases_and_no_more() {
    let mut session = Session::new();

    for place in 0..32 {
        assert_eq!(session.add_alias(word(place), Command::Wall), Ok(()));
    }

    let full = session.clone();
    assert_eq!(session.add_alias(word(32), 28u64), Err(Refusal::BadCommand));
    assert_eq!(
        session.add_alias(word(32), Command::Quit),
        Err(Refusal::AliasesFull)
    );
    assert_eq!(session, full);

    // One that is there is replaced all the same.
    assert_eq!(session.add_alias(word(31), Command::Quit), Ok(()));
    assert_ne!(session, full);
    assert_eq!(
        record(&mut session, &word(31)),
        record(&mut Session::new(), "quit")
    );

    for place in 0..31 {
        assert_eq!(
            record(&mut session, &word(place)),
            record(&mut Session::new(), "wall")
        );
    }
}

#[test]
fn an_alias_comes_before_a_shipped_word() {
    let mut session = Session::new();
    session.add_alias("q", Command::Only).unwrap();
    let only = record(&mut Session::new(), "only");
    assert_eq!(record(&mut session, "q"), only);
    assert_ne!(record(&mut session, "quit"), only);
}

#[test]
fn an_alias_for_each_command_does_what_its_name_does() {
    for command in Command::ALL {
        for rest in ["", "!", " 3", " a", " sp a", " tabe a", " +1"] {
            let mut named = Session::new();
            let mut aliased = Session::new();
            aliased.add_alias("zz", command).unwrap();
            let answer = aliased.input_cmd(format!("3zz{rest}"));
            assert_eq!(
                answer,
                named.input_cmd(format!("3{command}{rest}")),
                "{command}{rest}"
            );
            assert_eq!(
                answer.refusal() == Some(Refusal::Unimplemented),
                command.number() < 5
            );
        }
    }
}

#[test]
fn bytes_are_a_session_again() {
    let mut session = Session::new();
    session.add_alias("v", Command::Vertical).unwrap();
    session.input_cmd("v sp");

    // docs/SESSION-BYTES.md has this session as its example.
    let bytes = session.as_bytes();
    assert_eq!(bytes[..6], *b"\x04\x00v sp");
    assert_eq!(bytes[1026..1028], [1, 1]);
    assert_eq!(bytes[1028..1051], [0; 23]);
    assert_eq!(bytes[1051], 25);
    assert_eq!(bytes[1083], b'v');

    let mut again = Session::from_bytes(bytes).unwrap();
    assert_eq!(again, session);
    assert_eq!(again.as_bytes(), session.as_bytes());
    assert_eq!(again.last_command(), "v sp");
    assert_eq!(record(&mut again, "v sp"), [4, 0, 0, 1, 1, 1, 1]);
}

#[test]
fn equality_is_of_the_used_bytes() {
    // The line `q` after the line `quit` leaves its end in the free bytes.
    let mut long = Session::new();
    long.input_cmd("quit");
    long.input_cmd("q");
    let mut short = Session::new();
    short.input_cmd("q");
    assert_ne!(long.as_bytes(), short.as_bytes());
    assert_eq!(long, short);

    // Every free byte may be anything, and every used one counts.
    let mut other = *short.as_bytes();
    other[3..1026].fill(0xff);
    other[1027..].fill(0xff);
    let same = Session::from_bytes(&other).unwrap();
    assert_eq!(same, short);
    assert_eq!(hash(&same), hash(&short));
    assert_eq!(hash(&long), hash(&short));
    other[2] = b'p';
    let other = Session::from_bytes(&other).unwrap();
    assert_ne!(other, short);
    assert_eq!(other.last_command(), "p");

    // The order of adding leaves no trace.
    let mut ab = Session::new();
    ab.add_alias("a", Command::Quit).unwrap();
    ab.add_alias("b", Command::Only).unwrap();
    let mut ba = Session::new();
    ba.add_alias("b", Command::Only).unwrap();
    ba.add_alias("a", Command::Quit).unwrap();
    assert_eq!(ab, ba);
    assert_eq!(hash(&ab), hash(&ba));
    ba.add_alias("a", Command::Only).unwrap();
    assert_ne!(ab, ba);

    // With aliases, the bytes behind the last command and behind the last word are free.
    let mut other = *ab.as_bytes();
    other[1053..1083].fill(0xff);
    other[1085..].fill(0xff);
    assert_eq!(Session::from_bytes(&other), Ok(ab.clone()));
    other[1084] = b'c';
    assert_ne!(Session::from_bytes(&other).unwrap(), ab);

    // An added alias counts even if it leads where the shipped word does.
    let mut added = Session::new();
    added.add_alias("q", Command::Quit).unwrap();
    assert_ne!(added, Session::new());
}

#[test]
fn a_clone_goes_its_own_way() {
    let mut session = Session::new();
    session.input_cmd("q");
    let mut copy = session.clone();
    copy.input_cmd("w");
    copy.add_alias("a", Command::Quit).unwrap();
    assert_eq!(session.last_command(), "q");
    assert_eq!(copy.last_command(), "w");
    assert_eq!(refusal(&mut session, b"a"), Refusal::UnknownWord);
}

#[test]
fn damaged_bytes_are_refused() {
    let mut session = Session::new();
    session.add_alias("bb", Command::Only).unwrap();
    session.add_alias("b", Command::Close).unwrap();
    session.add_alias("ba", Command::Quit).unwrap();
    session.input_cmd("q");

    for (at, to) in [
        (1, 5),       // a line above 1,024 bytes
        (2, 0xff),    // a line that is not UTF-8
        (1026, 2),    // fewer aliases than the counts add up to
        (1026, 4),    // more of them
        (1026, 33),   // more than there can be
        (1027, 0),    // a count that is too low
        (1050, 1),    // a count that is too high
        (1051, 28),   // a command above 27
        (1083, b'!'), // a byte that is no word character
        (1085, b'c'), // words that do not ascend
        (1087, b'a'), // a word that stands twice
    ] {
        let mut bytes = *session.as_bytes();
        assert_ne!(bytes[at], to);
        bytes[at] = to;
        assert_eq!(Session::from_bytes(&bytes), Err(Refusal::NotASession));
    }

    for length in [0, 1, SESSION_BYTES - 1] {
        let cut = &session.as_bytes()[..length];
        assert_eq!(Session::from_bytes(cut), Err(Refusal::NotASession));
    }

    let mut longer = session.as_bytes().to_vec();
    assert_eq!(Session::from_bytes(&longer), Ok(session));
    longer.push(0);
    assert_eq!(Session::from_bytes(&longer), Err(Refusal::NotASession));
}

#[test]
fn debug_shows_line_and_aliases() {
    let mut session = Session::new();
    session.input_cmd("v \"");
    assert_eq!(
        format!("{session:?}"),
        r#"Session { last_command: "v \"", aliases: [] }"#
    );

    // Shorter words stand first, and of those of one length the one whose last byte is lower.
    session.add_alias("tab", Command::View).unwrap();
    session.add_alias("ab", Command::Tab).unwrap();
    session.add_alias("ba", Command::Quit).unwrap();
    session.add_alias("v", Command::Vertical).unwrap();
    assert_eq!(
        format!("{session:?}"),
        r#"Session { last_command: "v \"", aliases: [("v", 25), ("ba", 7), ("ab", 13), ("tab", 12)] }"#
    );
}
