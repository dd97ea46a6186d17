//! The crate's numbers and names are those of the header and of the definitions.
use pagyolint::{Command, Refusal, LINE_BYTES, SESSION_BYTES};
use std::collections::{BTreeMap, BTreeSet};
use std::path::Path;

fn text(file: &str) -> String {
    let top = Path::new(env!("CARGO_MANIFEST_DIR")).join("../..");
    std::fs::read_to_string(top.join(file)).expect(file)
}

/// A name as C has it: `LineTooLong` is `LINE_TOO_LONG`.
fn upper(name: &str) -> String {
    let mut upper = String::new();

    for c in name.chars() {
        if c.is_uppercase() && !upper.is_empty() {
            upper.push('_');
        }
        upper.extend(c.to_uppercase());
    }

    upper
}

#[test]
fn refusals_are_those_of_the_header() {
    let header = text("include/pagyolint.h");
    let cases = header.split("enum pagyolint_refusal {").nth(1).unwrap();
    let declared: BTreeMap<String, u64> = cases
        .split('}')
        .next()
        .unwrap()
        .lines()
        .filter_map(|line| line.trim().strip_prefix("PAGYOLINT_")?.split_once(" = "))
        .filter(|(name, _)| *name != "ACCEPTED")
        .map(|(name, rest)| {
            let number = rest.split([',', ' ']).next().unwrap();
            (name.to_string(), number.parse().expect(rest))
        })
        .collect();
    let here: BTreeMap<_, _> = Refusal::ALL
        .into_iter()
        .map(|refusal| (upper(&format!("{refusal:?}")), refusal.number()))
        .collect();
    assert_eq!(declared, here);
}

#[test]
fn sizes_are_those_of_the_header() {
    let header = text("include/pagyolint.h");
    assert!(header.contains(&format!(
        "\n#define PAGYOLINT_SESSION_BYTES {SESSION_BYTES}\n"
    )));
    assert!(header.contains(&format!("\n#define PAGYOLINT_LINE_BYTES {LINE_BYTES}\n")));
    assert!(header.contains(&format!(
        "\n#define PAGYOLINT_STORE_BYTES {}\n",
        LINE_BYTES + 40
    )));
}

#[test]
fn refusals_go_by_number() {
    for number in 0..=200 {
        match Refusal::from_number(number) {
            Some(refusal) => assert_eq!(refusal.number(), number),
            None => assert!(number == 0 || number > 13 && number != 99),
        }
    }

    assert_eq!(Refusal::from_number(u64::MAX), None);
}

#[test]
fn each_refusal_has_a_sentence_of_its_own() {
    let sentences: BTreeSet<_> = Refusal::ALL.iter().map(Refusal::to_string).collect();
    assert_eq!(sentences.len(), Refusal::ALL.len());
    assert!(sentences.iter().all(|sentence| sentence.len() > 10));
    let error: Box<dyn std::error::Error> = Box::new(Refusal::InvalidRange);
    assert_eq!(error.to_string(), "the command does not take this range");
}

#[test]
fn commands_are_those_of_the_definition() {
    let words = text("crates/words/specs/Words.antt");
    let names = words.split("\nnames =\n").nth(1).unwrap();
    let names = names.split("\n\n").next().unwrap();
    let rows: Vec<(String, u64)> = names
        .split("row \"")
        .skip(1)
        .map(|row| {
            let (name, rest) = row.split_once("\" ").expect(row);
            let number = rest.split(' ').next().unwrap().parse().expect(row);
            (name.to_string(), number)
        })
        .collect();
    let here: Vec<_> = Command::ALL
        .into_iter()
        .map(|command| (command.name().to_string(), command.number()))
        .collect();
    assert_eq!(rows, here);
}

#[test]
fn commands_go_by_number_and_name() {
    for (place, command) in Command::ALL.into_iter().enumerate() {
        assert_eq!(command.number(), place as u64);
        assert_eq!(u64::from(command), command.number());
        assert_eq!(Command::from_number(command.number()), Some(command));
        assert_eq!(Command::from_name(command.name()), Some(command));
        assert_eq!(command.to_string(), command.name());
    }

    assert_eq!(Command::from_number(28), None);
    assert_eq!(Command::from_name("sp"), None);
    assert_eq!(Command::from_name(""), None);
}
