//! Actions are read from their records and said in words.
use pagyolint::{
    Action, Axis, CloseFlags, Count, FocusChange, MoveDir1D, MovePosition, NotARecord, OpenFlags,
    OpenTarget, Session, Side, SizeChange, TabAction, TabTarget, WindowAction, WindowTarget,
    WriteFlags,
};
use std::collections::HashSet;

const BIG: u64 = u64::MAX;
const BIG_BYTES: [u8; 10] = [255, 255, 255, 255, 255, 255, 255, 255, 255, 1];

fn named(name: &str) -> OpenTarget {
    OpenTarget::Name(name.into())
}

fn next(count: Count, wrap: bool) -> FocusChange {
    FocusChange::Direction1D(MoveDir1D::Next, count, wrap)
}

fn previous(count: Count, wrap: bool) -> FocusChange {
    FocusChange::Direction1D(MoveDir1D::Previous, count, wrap)
}

const FIRST: FocusChange = FocusChange::Position(MovePosition::Beginning);
const LAST: FocusChange = FocusChange::Position(MovePosition::End);

fn read(record: &[u8], action: Action, words: &str) {
    assert_eq!(Action::from_record(record), Ok(Some(action.clone())));
    assert_eq!(action.to_string(), words);
}

#[test]
fn nothing() {
    assert_eq!(Action::from_record(&[0]), Ok(None));
    let accepted = Session::new().input_cmd("").outcome.unwrap();
    assert_eq!(accepted.to_string(), "nothing");
}

#[test]
fn close() {
    let close = |target, flags| Action::Window(WindowAction::Close(target, flags));
    read(
        &[1, 0, 0, 0],
        close(WindowTarget::Single(FocusChange::Current), CloseFlags::NONE),
        "close window current",
    );
    read(
        &[1, 0, 1, 3, 1],
        close(
            WindowTarget::Single(FocusChange::Offset(3)),
            CloseFlags::QUIT,
        ),
        "close window 3, quit",
    );
    read(
        &[1, 1, 2, 1, 1, 2, 0, 2],
        close(
            WindowTarget::AllBut(previous(Count::Exact(2), false)),
            CloseFlags::FORCE,
        ),
        "close all windows but previous 2, force",
    );
    read(
        &[1, 2, 3],
        close(WindowTarget::All, CloseFlags::FQ),
        "close all windows, quit, force",
    );
}

#[test]
fn resize() {
    let resize = |focus, axis, change| Action::Window(WindowAction::Resize(focus, axis, change));
    read(
        &[2, 0, 0, 0, 5],
        resize(FocusChange::Current, Axis::Horizontal, SizeChange::Exact(5)),
        "resize window current, height to 5",
    );
    read(
        &[2, 3, 1, 1, 0x80, 1],
        resize(FIRST, Axis::Vertical, SizeChange::Increase(128)),
        "resize window first, width by +128",
    );
    read(
        &[2, 4, 1, 2, 127],
        resize(LAST, Axis::Vertical, SizeChange::Decrease(127)),
        "resize window last, width by -127",
    );
}

#[test]
fn open() {
    let open = |target, flags, axis, side, count| {
        Action::Window(WindowAction::Open(target, flags, axis, side, count))
    };
    read(
        b"\x03\x03\x03a b\x00\x01\x01\x01\x03",
        open(
            named("a b"),
            OpenFlags::NONE,
            Axis::Vertical,
            Side::Previous,
            Count::Exact(3),
        ),
        r#"open "a b", on the left, width 3"#,
    );
    read(
        &[3, 2, 3, 0, 0, 0],
        open(
            OpenTarget::Unnamed,
            OpenFlags::FORCE | OpenFlags::READONLY,
            Axis::Horizontal,
            Side::Next,
            Count::Contextual,
        ),
        "open unnamed, force, read-only, below",
    );
}

#[test]
fn split() {
    let split = |target, flags, axis, side, count| {
        Action::Window(WindowAction::Split(target, flags, axis, side, count))
    };
    read(
        b"\x04\x03\x03a b\x00\x01\x01\x01\x03",
        split(
            named("a b"),
            OpenFlags::NONE,
            Axis::Vertical,
            Side::Previous,
            Count::Exact(3),
        ),
        r#"split "a b", on the left, 3 times"#,
    );
    read(
        &[&[4, 0, 1, 0, 0, 1][..], &BIG_BYTES].concat(),
        split(
            OpenTarget::Current,
            OpenFlags::FORCE,
            Axis::Horizontal,
            Side::Next,
            Count::Exact(BIG),
        ),
        "split current, force, below, 18446744073709551615 times",
    );
    read(
        &[4, 1, 0, 1, 0, 1, 1],
        split(
            OpenTarget::Alternate,
            OpenFlags::NONE,
            Axis::Vertical,
            Side::Next,
            Count::Exact(1),
        ),
        "split alternate, on the right",
    );
    read(
        &[4, 2, 0, 0, 1, 0],
        split(
            OpenTarget::Unnamed,
            OpenFlags::NONE,
            Axis::Horizontal,
            Side::Previous,
            Count::Contextual,
        ),
        "split unnamed, above, as often as the context says",
    );
}

#[test]
fn switch() {
    read(
        &[5, 1, 2],
        Action::Window(WindowAction::Switch(
            OpenTarget::Alternate,
            OpenFlags::READONLY,
        )),
        "switch to alternate, read-only",
    );
}

#[test]
fn write() {
    let write = |target, name: Option<&str>, flags| {
        Action::Window(WindowAction::Write(target, name.map(String::from), flags))
    };
    read(
        &[6, 0, 0, 0, 0],
        write(
            WindowTarget::Single(FocusChange::Current),
            None,
            WriteFlags::NONE,
        ),
        "write window current",
    );
    read(
        b"\x06\x00\x00\x01\x01a\x01",
        write(
            WindowTarget::Single(FocusChange::Current),
            Some("a"),
            WriteFlags::FORCE,
        ),
        r#"write window current to "a", force"#,
    );
    read(
        &[6, 2, 0, 1],
        write(WindowTarget::All, None, WriteFlags::FORCE),
        "write all windows, force",
    );
}

#[test]
fn tab_close() {
    let close = |target, flags| Action::Tab(TabAction::Close(target, flags));
    read(
        &[7, 0, 4, 1],
        close(TabTarget::Single(LAST), CloseFlags::QUIT),
        "close tab last, quit",
    );
    read(
        &[7, 1, 0, 3],
        close(TabTarget::AllBut(FocusChange::Current), CloseFlags::FQ),
        "close all tabs but current, quit, force",
    );
    read(
        &[7, 2, 0],
        close(TabTarget::All, CloseFlags::NONE),
        "close all tabs",
    );
}

#[test]
fn tab_focus() {
    let focus = |focus| Action::Tab(TabAction::Focus(focus));
    read(
        &[8, 2, 0, 0, 1],
        focus(next(Count::Contextual, true)),
        "focus tab next, wrapping",
    );
    read(
        &[8, 2, 1, 1, 2, 1],
        focus(previous(Count::Exact(2), true)),
        "focus tab previous 2, wrapping",
    );
    read(&[8, 3], focus(FIRST), "focus tab first");
    read(
        &[&[8, 1][..], &BIG_BYTES].concat(),
        focus(FocusChange::Offset(BIG)),
        "focus tab 18446744073709551615",
    );
}

#[test]
fn tab_move() {
    let moved = |focus| Action::Tab(TabAction::Move(focus));
    read(&[9, 4], moved(LAST), "move tab to last");
    read(&[9, 1, 0], moved(FocusChange::Offset(0)), "move tab to 0");
    read(
        &[9, 2, 0, 1, 1, 0],
        moved(next(Count::Exact(1), false)),
        "move tab to next 1",
    );
}

#[test]
fn tab_open() {
    let open = |target, flags, focus| Action::Tab(TabAction::Open(target, flags, focus));
    read(
        &[10, 1, 2, 0],
        open(
            OpenTarget::Alternate,
            OpenFlags::READONLY,
            FocusChange::Current,
        ),
        "open tab alternate, read-only, at current",
    );
    read(
        b"\x0a\x03\x02\xc3\xa4\x01\x01\x02",
        open(named("\u{e4}"), OpenFlags::FORCE, FocusChange::Offset(2)),
        "open tab \"\u{e4}\", force, at 2",
    );
}

#[test]
fn lines_in_words() {
    for (line, words) in [
        ("3", "nothing"),
        ("close!", "close window current, force"),
        ("2on", "close all windows but 2, quit"),
        ("+5-3q!", "close window previous 2, quit, force"),
        ("$q", "close window last, quit"),
        ("qa", "close all tabs, quit"),
        ("res +5", "resize window current, height by +5"),
        ("2vert res -5", "resize window current, width by -5"),
        ("2res 7", "resize window 2, height to 7"),
        ("sp", "split current, above"),
        ("bel vs! %", "split current, force, on the right"),
        (r"vert 3sp a\ b", r#"open "a b", on the left, width 3"#),
        ("view a", r#"switch to "a", read-only"#),
        ("abo view #", "split alternate, read-only, above"),
        ("w", "write window current"),
        (
            r#"w! "a\"\\b""#,
            r#"write window current to "a\"\\b", force"#,
        ),
        ("wa", "write all windows"),
        ("3tabc!", "close tab 3, quit, force"),
        ("tabo", "close all tabs but current, quit"),
        ("tabn", "focus tab next, wrapping"),
        ("tabp 2", "focus tab previous 2, wrapping"),
        ("tabr", "focus tab first"),
        ("tabl", "focus tab last"),
        ("tabm", "move tab to last"),
        ("tabm -2", "move tab to previous 2"),
        ("tabe", "open tab unnamed, at current"),
        ("$tab sp a", r#"open tab "a", at last"#),
    ] {
        let accepted = Session::new().input_cmd(line).outcome.expect(line);
        assert_eq!(accepted.to_string(), words, "{line}");
    }
}

#[test]
fn names_are_quoted() {
    let words = |name: &str| named(name).to_string();
    assert_eq!(words("current"), r#""current""#);
    assert_eq!(words("\t\r\n\\\""), r#""\t\r\n\\\"""#);
    assert_eq!(
        words("\0\u{1b}\u{7f}\u{85}"),
        r#""\u{0}\u{1b}\u{7f}\u{85}""#
    );
    assert_eq!(words("\u{6f22} \u{1f600}'"), "\"\u{6f22} \u{1f600}'\"");
}

/// Some actions of every kind: every case of every part, with numbers and names at which words could run together.
fn actions() -> Vec<Action> {
    let counts = [Count::Contextual, Count::Exact(1), Count::Exact(11)];
    let mut focuses = vec![FocusChange::Current, FIRST, LAST];
    focuses.extend([0, 1, 11].map(FocusChange::Offset));

    for count in counts {
        for wrap in [false, true] {
            focuses.extend([next(count, wrap), previous(count, wrap)]);
        }
    }

    let names = ["a", "a\"", "\\", "\\\\", "current", "\" to \"", ", force"];
    let mut targets = vec![
        OpenTarget::Current,
        OpenTarget::Alternate,
        OpenTarget::Unnamed,
    ];
    targets.extend(names.map(named));

    let mut windows = vec![WindowTarget::All];
    let mut tabs = vec![TabTarget::All];

    for focus in &focuses {
        windows.push(WindowTarget::Single(focus.clone()));
        windows.push(WindowTarget::AllBut(focus.clone()));
        tabs.push(TabTarget::Single(focus.clone()));
        tabs.push(TabTarget::AllBut(focus.clone()));
    }

    let axes = [Axis::Horizontal, Axis::Vertical];
    let close_flags = [0, 1, 2, 3].map(|bits| CloseFlags::from_bits(bits).unwrap());
    let open_flags = [0, 1, 2, 3].map(|bits| OpenFlags::from_bits(bits).unwrap());
    let write_flags = [0, 1].map(|bits| WriteFlags::from_bits(bits).unwrap());
    let mut actions = Vec::new();

    for flags in close_flags {
        for target in &windows {
            actions.push(Action::Window(WindowAction::Close(target.clone(), flags)));
        }
        for target in &tabs {
            actions.push(Action::Tab(TabAction::Close(target.clone(), flags)));
        }
    }

    for focus in &focuses {
        for axis in axes {
            for size in [0, 1, 11] {
                for change in [
                    SizeChange::Exact(size),
                    SizeChange::Increase(size),
                    SizeChange::Decrease(size),
                ] {
                    let resize = WindowAction::Resize(focus.clone(), axis, change);
                    actions.push(Action::Window(resize));
                }
            }
        }
        actions.push(Action::Tab(TabAction::Focus(focus.clone())));
        actions.push(Action::Tab(TabAction::Move(focus.clone())));
    }

    for flags in open_flags {
        for target in &targets {
            for axis in axes {
                for side in [Side::Next, Side::Previous] {
                    for count in counts {
                        let open = WindowAction::Open(target.clone(), flags, axis, side, count);
                        let split = WindowAction::Split(target.clone(), flags, axis, side, count);
                        actions.extend([Action::Window(open), Action::Window(split)]);
                    }
                }
            }
            for focus in &focuses {
                let open = TabAction::Open(target.clone(), flags, focus.clone());
                actions.push(Action::Tab(open));
            }
            actions.push(Action::Window(WindowAction::Switch(target.clone(), flags)));
        }
    }

    for flags in write_flags {
        for target in &windows {
            let write = WindowAction::Write(target.clone(), None, flags);
            actions.push(Action::Window(write));
            for name in names {
                let write = WindowAction::Write(target.clone(), Some(name.into()), flags);
                actions.push(Action::Window(write));
            }
        }
    }

    actions
}

#[test]
fn no_two_actions_have_the_same_words() {
    let actions = actions();
    let different: HashSet<_> = actions.iter().collect();
    let words: HashSet<_> = actions.iter().map(Action::to_string).collect();
    assert_eq!(different.len(), actions.len());
    assert_eq!(words.len(), actions.len());
    assert!(!words.contains("nothing"));
}

#[test]
fn bytes_that_are_no_record() {
    for bytes in [
        &b""[..],
        b"\x00\x00",                                              // a byte left over
        b"\x80\x00",                                              // a longer form of 0
        b"\x0b",                                                  // a kind that there is not
        b"\x01",                                                  // cut short
        b"\x01\x03\x00",                                          // a target that there is not
        b"\x01\x02\x04",                                          // a close flag that there is not
        b"\x01\x02\x80\x01",                                      // another one
        b"\x02\x00\x02\x00\x05",                                  // an axis that there is not
        b"\x02\x00\x00\x03\x05",                                  // a change that there is not
        b"\x03\x00\x00\x00\x02\x00",                              // a side that there is not
        b"\x03\x00\x00\x00\x00\x02\x01",                          // a count that there is not
        b"\x04\x00\x04\x00\x00\x00",                              // an open flag that there is not
        b"\x05\x04\x00",                 // an open target that there is not
        b"\x05\x03\x00\x00",             // an empty name
        b"\x05\x03\x02a",                // a name that is cut short
        b"\x05\x03\x81\x00a\x00",        // a name's count in a longer form
        b"\x05\x03\x01\xff\x00",         // a name that is not UTF-8
        b"\x05\x03\x03\xed\xa0\x80\x00", // a surrogate, which is not UTF-8
        b"\x06\x02\x02\x00",             // neither a name nor none
        b"\x06\x02\x00\x02",             // a write flag that there is not
        b"\x07\x03\x00",                 // a tab target that there is not
        b"\x08\x05",                     // a focus that there is not
        b"\x08\x02\x02\x00\x00",         // a direction that there is not
        b"\x08\x02\x00\x00\x02",         // a wrap that there is not
        b"\x08\x01\x80",                 // a number that is cut short
        b"\x08\x01\x83\x00",             // 3 in a longer form
        b"\x08\x01\x83\x80\x00",         // and in a still longer one
        b"\x08\x01\xff\xff\xff\xff\xff\xff\xff\xff\xff\x02", // above 2^64 - 1
        b"\x08\x01\x80\x80\x80\x80\x80\x80\x80\x80\x80\x02", // 2^64
        b"\x08\x01\xff\xff\xff\xff\xff\xff\xff\xff\xff\x81\x00", // eleven groups
        b"\x08\x01\x80\x80\x80\x80\x80\x80\x80\x80\x80\x80\x01", // 2^70
        b"\x05\x03\xff\xff\xff\xff\xff\xff\xff\xff\xff\x01a\x00", // a name longer than all bytes
    ] {
        assert_eq!(Action::from_record(bytes), Err(NotARecord), "{bytes:?}");
    }

    assert_eq!(NotARecord.to_string(), "the bytes are not a record");
}

/// All texts of up to three bytes are read, and those that are records are counted by their kinds.
#[test]
fn all_short_bytes() {
    let mut found = [0; 12];
    let mut count = |bytes: &[u8]| {
        if Action::from_record(bytes).is_ok() {
            found[usize::from(bytes[0])] += 1;
        }
    };

    for a in 0..=255 {
        count(&[a]);
        for b in 0..=255 {
            count(&[a, b]);
            for c in 0..=255 {
                count(&[a, b, c]);
            }
        }
    }

    // 0: nothing. 1 and 7: All and four flags. 5: three targets and four flags. 8 and 9: Current, Beginning, End, and Offset with
    // a number below 128. The shortest of the other kinds have four bytes.
    assert_eq!(found, [1, 4, 0, 0, 0, 12, 0, 4, 131, 131, 0, 0]);
}
