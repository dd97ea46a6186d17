//! The points about document 01 that are easy to misread, in the order in which they were settled.
use super::*;

const LISTS: [Op; 3] = [Op::Filenames, Op::Strings, Op::Options];

/// The command numbers of some commands.
const FILTER: usize = 0;
const QUIT: usize = 7;
const TAB: usize = 13;
const VERTICAL: usize = 25;

// One reading.

#[test]
fn word_of_a_newline() {
    check(&[
        ("\n!", "0 1 00"),
        ("\n\n", "0 1 00"),
        ("\nq\n", "0 1 00"),
        ("3\nq", "0 1 00"),
    ]);
    refused(3, &["\n\n\n", "q\n\n", "q\nq"]);
}

#[test]
fn range_before_an_empty_word() {
    check(&[("%", "0 1 00"), ("+B+1", "0 1 00"), (":", "0 1 00")]);
    refused(4, &["O"]);
    refused(3, &["3 "]);
}

#[test]
fn bang_as_word() {
    check(&[("!q", "11 1 -"), ("!!", "11 1 -"), ("vert!!", "11 2 -")]);
}

#[test]
fn greedy_word() {
    check(&[
        ("sp#", "10 1 03737023"),
        ("s#a#b#", "10 1 06732361236223"),
        ("w>>f", "10 1 04773e3e66"),
        ("s/a/b/", "11 1 -"),
        ("sp3", "0 1 040301330000010101"),
        ("sp%", "0 1 04000000010101"),
        ("tab3sp", "0 2 0a000000"),
        ("vert!sp", "0 2 04000001010101"),
        ("vert:sp", "0 2 04000001010101"),
    ]);
}

#[test]
fn one_run_of_colons() {
    refused(3, &[": :q", "3:q"]);
    accepted(&[" \t:: \tq"]);
}

#[test]
fn no_spaces() {
    check(&[
        ("sp a\r\n", "0 1 040302610d0000010101"),
        ("q\u{e9}", "0 1 01000001"),
    ]);
    refused(3, &["\u{e9}", "\rq", "\u{a0}q", "\u{feff}q"]);
}

#[test]
fn bar_ends_plain_text_only() {
    accepted(&["q|q"]);
    refused(3, &["sp a|b"]);
}

#[test]
fn newline_after_the_argument() {
    check(&[("w a\n", "0 1 06000001016100")]);
    refused_alone(3, &LISTS, &["a\n"]);
    refused_alone(3, &[Op::Range], &["5\n"]);
}

// 4 against 3, and 7.

#[test]
fn digits_as_met() {
    refused(4, &["O q", "Ofoo", "Oq\nq", "+5,O"]);
    refused(3, &["q\nO", "3:Oq", "'Oq", "1,'Oq"]);
    check(&[("vert Oq", "4 2 -")]);
}

#[test]
fn digits_as_text() {
    accepted(&["w O", "sp O", "q O"]);
    check(&[(&format!("{}3q", "0".repeat(1_000)), "0 1 0100010301")]);
}

#[test]
fn digits_of_range_arguments() {
    refused(4, &["tabn O ", "res O ", "tabp O", "tabm O"]);
    refused(5, &["3tabn O"]);
    check(&[("3tabm O", "0 1 090103"), ("3tabm q", "0 1 090103")]);
}

#[test]
fn running_sum() {
    refused(7, &["+B+1-1close", "+B+1-5close"]);
    refused(6, &["$+B+1q", "1,+B+1q", "3+B+1tabp"]);
    accepted(&["+B+1sp", "+B+1view", "+B+1qa", "+B+1w", "+B+1", "1+B+1,2sp"]);
    check(&[("+B+1vert", "0 2 00")]);
}

#[test]
fn sum_before_tab_and_list() {
    check(&[("tab 1+B+1sp", "7 2 -"), ("1+B+1sp \"", "7 1 -")]);
}

// Handlers.

#[test]
fn order_of_errors_in_splits() {
    refused(7, &["1+B+1sp \"", "1+B+1vs \"", "1+B+1sp a b"]);
    refused(3, &["sp a \"", "vs a \"", "sp a b \""]);
    refused(5, &["sp a b", "vs a b"]);
}

#[test]
fn order_of_errors_in_tabedit() {
    refused(3, &["%tabe \"", "+B+1tabe a b \""]);
    refused(5, &["%tabe a b", "+B+1tabe a b"]);
    refused(6, &["%tabe a"]);
    refused(7, &["+B+1tabe a"]);
}

#[test]
fn order_of_errors_in_resize() {
    refused(5, &["%resize", "+B+1resize"]);
    refused(4, &["%resize O"]);
    refused(3, &["%resize q", "+B+1resize 5 "]);
    refused(
        6,
        &["+B+1resize 1,2", "resize .+1", "+B+1resize %", "%resize 5"],
    );
    refused(7, &["%resize +B+1", "%resize 5+B+1", "+B+1resize 5"]);
}

#[test]
fn tabnext_and_tabprevious() {
    refused(5, &["3tabn 3", "3tabp 3", "tabn 5 ", "tabp 5 "]);
    refused(6, &["tabn 1,2", "tabp 1,2", "tabp 1+0", "tabp +1"]);
    check(&[("tabp 3", "0 1 080201010301"), ("tabn 1+0", "0 1 080101")]);
}

#[test]
fn tabmove() {
    check(&[("3tabm 5 ", "0 1 090103"), ("tabm", "0 1 0904")]);
    refused(3, &["tabm 5 "]);
    refused(6, &["tabm 1,2"]);
}

#[test]
fn what_is_ignored() {
    accepted(&[
        "close \"",
        "only \"",
        "quit \"",
        "tabclose \"",
        "tabonly \"",
    ]);
    accepted(&["%quitall \"", "%wall \"", "%tabfirst \"", "%tablast \""]);
    accepted(&["%write", "+B+1write", "%view", "+B+1view"]);
}

#[test]
fn range_as_count() {
    check(&[
        ("+5sp", "0 1 030000000101B"),
        (".sp", "0 1 030000000101B"),
        ("%sp", "0 1 030000000101B"),
        ("5-9sp", "0 1 03000000010101"),
        ("0sp", "0 1 03000000010101"),
    ]);
}

#[test]
fn zero_sums() {
    check(&[
        ("-0close", "0 1 0100020101000000"),
        ("+0-0close", "0 1 0100020101000000"),
        (".close", "0 1 0100020001000000"),
        ("3-5close", "0 1 0100010000"),
    ]);
}

#[test]
fn prefixes() {
    check(&[
        ("3tab tab sp", "0 3 0a000000"),
        ("hor vs", "0 2 04000001010101"),
        ("%tab", "6 1 -"),
        ("2,3vert! sp", "0 2 04000001010101"),
    ]);
}

#[test]
fn strings_or_filenames() {
    check(&[
        ("w #", "0 1 06000001012300"),
        ("sp #", "0 1 04010000010101"),
        ("vs #", "0 1 04010001010101"),
        ("view #", "0 1 050102"),
        ("tabe #", "0 1 0a010000"),
    ]);
}

// Lists.

#[test]
fn spaces_around_lists() {
    refused_alone(3, &LISTS, &[" a", "\ta"]);
    refused_alone(3, &[Op::Range], &[" 3", "3 ", ""]);

    for op in LISTS {
        assert_eq!(answer(op, ""), [0, 0]);
        assert_eq!(answer(op, " \t "), [0, 0]);
    }
}

#[test]
fn lone_specials() {
    assert_eq!(answer(Op::Filenames, "# %"), [0, 2, 0, 1]);
    assert_eq!(answer(Op::Filenames, "%\t#"), [0, 2, 1, 0]);
    assert_eq!(
        answer(Op::Filenames, "\"#\" \\#"),
        *b"\x00\x02\x02\x01#\x02\x01#"
    );
    assert_eq!(
        answer(Op::Filenames, "#a %%"),
        *b"\x00\x02\x02\x02#a\x02\x02%%"
    );
    assert_eq!(answer(Op::Strings, "# %"), *b"\x00\x02\x01#\x01%");
}

#[test]
fn lists_that_fail() {
    refused_alone(
        3,
        &LISTS,
        &[
            "\"\"", "\"a\"b", "a\"b\"", "a\\", "\\", "a\\q", "\"\\#\"", "\\n",
        ],
    );
}

#[test]
fn options_after_quotes_and_escapes() {
    assert_eq!(
        answer(Op::Options, "\"++k=v w\""),
        *b"\x00\x01\x02\x01k\x03v w"
    );
    assert_eq!(answer(Op::Options, "++k"), *b"\x00\x01\x01\x01k");
    assert_eq!(answer(Op::Options, "++k="), *b"\x00\x01\x02\x01k\x00");
    assert_eq!(answer(Op::Options, "+++"), *b"\x00\x01\x01\x01+");
    assert_eq!(
        answer(Op::Options, "++k=a=b +x"),
        *b"\x00\x02\x02\x01k\x03a=b\x00\x02+x"
    );
    refused_alone(3, &[Op::Options], &["++= \""]);
    refused_alone(5, &[Op::Options], &["++= a", "++=", "++", "a ++=b"]);
}

// Limits, stores and the session.

#[test]
fn whole_line_is_remembered() {
    let mut session = Session::new();
    assert_eq!(session.remembered(), "");

    for line in [
        "vert sp a\n",
        "vert foo",
        "\"",
        "%close",
        "w a b",
        "!",
        "",
        "Oq",
        "+B+1q",
    ] {
        let line = expand(line);
        session.run(&line);
        assert_eq!(session.remembered(), line);
    }
}

#[test]
fn unknown_word_of_the_refused_reading() {
    check(&[("vert foo", "10 2 03666f6f")]);
}

#[test]
fn aliases_by_number() {
    let mut session = Session::new();

    // A hidden word still has its command's number.
    session.add_alias(TAB, "quit");
    session.add_alias(QUIT, "x");
    assert_eq!(session.run("x").to_string(), "0 1 01000001");
    assert_eq!(session.run("quit sp").to_string(), "0 2 0a000000");
    assert_eq!(session.run("q").to_string(), "0 1 01000001");

    // Commands 0 to 4 may be aliased, and a word may be added again.
    for number in FILTER..=4 {
        session.add_alias(number, "x");
        assert_eq!(session.run("x").to_string(), "11 1 -");
    }

    session.fresh();
    assert_eq!(session.run("x").to_string(), "10 1 0178");
    assert_eq!(session.run("quit").to_string(), "0 1 01000001");
}

#[test]
fn prefixes_by_lookup() {
    let mut session = Session::new();
    session.add_alias(VERTICAL, "v");
    assert_eq!(session.run("v v v").to_string(), "0 4 00");
    assert_eq!(session.run(&"v ".repeat(512)).to_string(), "0 513 00");

    session.fresh();
    assert_eq!(session.run(&"tab ".repeat(256)).to_string(), "0 257 00");

    let prefixes = [
        "tab",
        "horizontal",
        "hor",
        "vertical",
        "vert",
        "aboveleft",
        "lefta",
        "leftabove",
        "abo",
        "belowright",
        "rightb",
        "rightbelow",
        "bel",
    ];

    for word in prefixes {
        assert_eq!(session.run(word).readings, 2, "{word}");
        session.add_alias(QUIT, word);
    }

    for word in prefixes {
        assert_eq!(
            session.run(&format!("{word} {word} q")).readings,
            1,
            "{word}"
        );
    }
}

// Demand 3.

#[test]
fn prefixes_as_typed() {
    check(&[
        ("vert\n", "0 2 00"),
        ("vert !", "11 2 -"),
        ("vert :sp", "0 2 04000001010101"),
        ("vert \t sp", "0 2 04000001010101"),
        ("vert ", "0 2 00"),
    ]);
}
