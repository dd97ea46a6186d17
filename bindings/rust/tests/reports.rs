//! The stored reports of the console's programs, line by line: the crate answers the same, and says it in the same words.
use pagyolint::{Answer, Command, Refusal, Session};
use std::path::Path;

fn read(file: &str) -> Vec<u8> {
    let path = Path::new(env!("CARGO_MANIFEST_DIR"))
        .join("../../crates")
        .join(file);
    std::fs::read(path).expect("the file is there")
}

/// The lines of a sheet: 0x0A ends a line, and a last line may go without.
fn lines(bytes: &[u8]) -> Vec<&[u8]> {
    let mut lines: Vec<&[u8]> = bytes.split(|&b| b == b'\n').collect();

    if lines.last().is_some_and(|line| line.is_empty()) {
        lines.pop();
    }

    lines
}

/// The lines of a report, without the texts of refused lines, which stand under their lines.
fn report(file: &str) -> Vec<String> {
    let text = String::from_utf8(read(file)).expect("reports are UTF-8");
    text.lines()
        .filter(|line| !line.starts_with("    "))
        .map(str::to_owned)
        .collect()
}

/// The lines behind a heading.
fn behind<'a>(report: &'a [String], heading: &str) -> &'a [String] {
    let at = report.iter().position(|line| line == heading);
    &report[1 + at.expect("the heading")..]
}

const SPELLINGS: &str = "spellings and their commands";

/// A line of the report, without its number.
fn told(answer: &Answer) -> String {
    let refusal = answer.refusal().map_or(0, Refusal::number);
    let written = match &answer.outcome {
        Ok(accepted) => accepted.record.clone(),
        Err(refused) => refused.word.as_deref().map_or(Vec::new(), name),
    };
    let hex: String = written.iter().map(|b| format!("{b:02x}")).collect();
    let hex = if hex.is_empty() { "-".to_owned() } else { hex };
    format!("{refusal} {} {hex} {answer}", answer.readings)
}

/// A word as a name: its byte count in groups of seven bits, and its bytes.
fn name(word: &str) -> Vec<u8> {
    let mut bytes = Vec::new();
    let mut count = word.len();

    while count > 127 {
        bytes.push((count % 128 + 128) as u8);
        count /= 128;
    }

    bytes.push(count as u8);
    bytes.extend_from_slice(word.as_bytes());
    bytes
}

/// Runs a sheet and compares the report, whose last line sums up.
fn compare(session: &mut Session, sheet: &[&[u8]], report: &[String]) {
    assert_eq!(sheet.len() + 1, report.len());

    for (number, (line, want)) in sheet.iter().zip(report).enumerate() {
        let answer = session.input_cmd(line);
        assert_eq!(&format!("{} {}", number + 1, told(&answer)), want);
    }
}

#[test]
fn the_reference_sheet() {
    let sheet = read("checklist/data/reference.sheet");
    let report = report("checklist/stdout");
    let third = behind(&report, "reference sheet");
    compare(
        &mut Session::new(),
        &lines(&sheet),
        &third[..third.len() - 1],
    );
}

/// Adds the alias of a line with two words; the refusal in the report's words.
fn add(session: &mut Session, word: &[u8], command: &[u8]) -> Result<(), String> {
    let command = std::str::from_utf8(command).expect("a line that is not UTF-8 is refused before");
    let number = if command.bytes().all(|b| b.is_ascii_digit()) {
        command.parse().unwrap_or(u64::MAX)
    } else {
        spelled(command).expect("a line with another word is refused before")
    };
    session
        .add_alias(word, number)
        .map_err(|refusal| format!("{} {refusal}", refusal.number()))
}

/// The command that a shipped spelling leads to, by the first part of the checklist's report.
fn spelled(word: &str) -> Option<u64> {
    behind(&report("checklist/stdout"), SPELLINGS)
        .iter()
        .take(68)
        .find_map(|line| {
            let mut parts = line.split(' ');
            let found = parts.next() == Some(word);
            let number = parts.next()?.parse().ok()?;
            found.then_some(number)
        })
}

#[test]
fn the_spellings_and_the_names_of_their_commands() {
    let report = report("checklist/stdout");

    let spellings = behind(&report, SPELLINGS);

    for line in &spellings[..68] {
        let parts: Vec<&str> = line.split(' ').collect();
        let number: u64 = parts[1].parse().expect("a number");
        assert_eq!(
            Command::from_number(number).map(Command::name),
            Some(parts[2])
        );
    }

    assert_eq!(spellings[68], "68 spellings");
}

#[test]
fn the_reference_sheet_with_aliases() {
    let mut session = Session::new();
    let report = report("exsheet/stdout");
    let aliases = read("exsheet/data/reference.aliases");
    let mut at = 3;

    for (number, line) in lines(&aliases).into_iter().enumerate() {
        let fields: Vec<&[u8]> = line
            .split(|b| b" \t".contains(b))
            .filter(|field| !field.is_empty())
            .collect();
        let head = format!("alias {} ", number + 1);
        let refused = report[at].strip_prefix(&head);

        match (fields.as_slice(), refused) {
            ([], None) => {}
            ([word, command], None) => assert_eq!(add(&mut session, word, command), Ok(())),
            (_, Some(words)) => {
                at += 1;
                let (number, words) = words.split_once(' ').expect("a number and words");
                let refusal = Refusal::from_number(number.parse().expect("a number"));
                let refusal = refusal.expect("a refusal");
                assert!(words.starts_with(&refusal.to_string()));

                if let ([word, command], 8 | 9 | 13) = (fields.as_slice(), refusal.number()) {
                    assert_eq!(
                        add(&mut session, word, command),
                        Err(format!("{number} {words}"))
                    );
                }
            }
            (_, None) => panic!("alias {} should be refused", number + 1),
        }
    }

    let sheet = read("exsheet/data/reference.sheet");
    compare(
        &mut session,
        &lines(&sheet),
        &report[at..report.len() - 1],
    );
}
