//! Document 01's sample lines.
use super::*;

#[test]
fn samples() {
    check(&[
        (":vert 3sp a\\ b", "0 2 0303036120620001010103"),
        ("foo", "10 1 03666f6f"),
        ("", "0 1 00"),
        ("3", "0 1 00"),
        ("3 q", "3 1 -"),
        ("vert", "0 2 00"),
        ("+5-3close", "0 1 0100020101020000"),
        ("0sp", "0 1 03000000010101"),
        ("2,7sp", "0 1 03000000010107"),
        ("2,.+4sp", "0 1 030000000101B"),
        ("resize +5 ", "3 1 -"),
        ("tabn q", "5 1 -"),
        ("tabm q", "3 1 -"),
        ("tab view #", "0 2 0a010200"),
        ("w \"\"", "3 1 -"),
        ("w a b", "5 1 -"),
        ("$+1close", "6 1 -"),
        ("\nq", "0 1 00"),
        ("q\nq", "3 1 -"),
        ("Bclose", "0 1 010001B00"),
        ("Oclose", "4 1 -"),
        ("+B+1close", "7 1 -"),
        ("+B+1sp", "0 1 030000000101B"),
    ]);
}

/// Each kind of record, each choice inside it, and each flag.
#[test]
fn record_kinds() {
    check(&[
        // Close: target, flags.
        ("close", "0 1 01000000"),
        ("close!", "0 1 01000002"),
        ("$only", "0 1 01010401"),
        ("3quit!", "0 1 0100010303"),
        // Resize: focus, axis, change.
        ("res 5", "0 1 0200000005"),
        ("vert -res +300", "0 2 0202010101000101ac02"),
        ("res -7", "0 1 0200000207"),
        // Open and Split: target, flags, axis, side, count.
        ("bel 2sp! #", "0 2 03010100000102"),
        ("lefta vs %", "0 2 04000001010101"),
        // Switch: target, flags.
        ("view", "0 1 050002"),
        ("view! a", "0 1 0503016103"),
        // Write: target, name or none, flags.
        ("w", "0 1 0600000000"),
        ("w! b", "0 1 06000001016201"),
        ("wall!", "0 1 06020001"),
        // Tab Close: target, flags.
        ("qa", "0 1 070201"),
        ("2tabc", "0 1 0700010201"),
        ("+2tabo!", "0 1 0701020001020003"),
        // Tab Focus and Move: focus.
        ("tabn", "0 1 0802000001"),
        ("tabn +3", "0 1 080200010301"),
        ("tabp", "0 1 0802010001"),
        ("4tabp", "0 1 080201010401"),
        ("tabfirst", "0 1 0803"),
        ("tabl", "0 1 0804"),
        ("tabm", "0 1 0904"),
        ("tabm 128", "0 1 09018001"),
        // Tab Open: target, flags, focus.
        ("tabe", "0 1 0a020000"),
        ("$tabnew! c", "0 1 0a0301630104"),
        ("3tab sp", "0 2 0a00000103"),
    ]);
}
