//! Document 01's sample lines, each on a fresh session: refusal or 0, readings, and what was written, in hex.
use pagyolint::Session;

const SAMPLES: [(&str, u64, u64, &str); 23] = [
    ("", 0, 1, "00"),
    ("3", 0, 1, "00"),
    ("3 q", 3, 1, ""),
    ("vert", 0, 2, "00"),
    ("+5-3close", 0, 1, "0100020101020000"),
    ("0sp", 0, 1, "03000000010101"),
    ("2,7sp", 0, 1, "03000000010107"),
    ("2,.+4sp", 0, 1, "030000000101ffffffffffffffffff01"),
    ("resize +5 ", 3, 1, ""),
    ("tabn q", 5, 1, ""),
    ("tabm q", 3, 1, ""),
    ("tab view #", 0, 2, "0a010200"),
    (":vert 3sp a\\ b", 0, 2, "0303036120620001010103"),
    ("foo", 10, 1, "03666f6f"),
    ("w \"\"", 3, 1, ""),
    ("w a b", 5, 1, ""),
    ("$+1close", 6, 1, ""),
    ("\nq", 0, 1, "00"),
    ("q\nq", 3, 1, ""),
    (
        "18446744073709551615close",
        0,
        1,
        "010001ffffffffffffffffff0100",
    ),
    ("18446744073709551616close", 4, 1, ""),
    ("+18446744073709551615+1close", 7, 1, ""),
    (
        "+18446744073709551615+1sp",
        0,
        1,
        "030000000101ffffffffffffffffff01",
    ),
];

fn hex(bytes: &[u8]) -> String {
    bytes.iter().map(|byte| format!("{byte:02x}")).collect()
}

#[test]
fn sample_lines() {
    for (line, refusal, readings, written) in SAMPLES {
        let mut session = Session::new();
        let answer = session.input_cmd(line);
        assert_eq!(answer.readings, readings, "{line:?}");
        assert_eq!(session.last_command(), line);

        match &answer.outcome {
            Ok(accepted) => {
                assert_eq!((refusal, hex(&accepted.record).as_str()), (0, written));
                assert_eq!(accepted.action.is_none(), written == "00", "{line:?}");
                assert_eq!(answer.action(), accepted.action.as_ref());
                assert_eq!(answer.refusal(), None);
            }
            Err(refused) => {
                assert_eq!(refused.refusal.number(), refusal, "{line:?}");
                assert_eq!(answer.action(), None);
                assert_eq!(answer.refusal(), Some(refused.refusal));
                let name = refused.word.as_ref().map(|word| {
                    assert!(word.len() < 128);
                    format!("{:02x}{}", word.len(), hex(word.as_bytes()))
                });
                assert_eq!(name.unwrap_or_default(), written, "{line:?}");
            }
        }
    }
}
