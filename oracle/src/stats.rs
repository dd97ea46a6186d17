//! How many vectors of a stream have each op and class.
use std::collections::BTreeMap;
use std::io::{self, Read, Write};

use crate::vector::{read_op, read_part, take_number, Op};

/// What is counted.
#[derive(Default)]
pub struct Stats {
    vectors: u64,
    classes: BTreeMap<(u8, u64), u64>,
    kinds: BTreeMap<u64, u64>,
    readings: BTreeMap<u64, u64>,
    longest: usize,
}

impl Stats {
    /// Counts all vectors of a stream.
    pub fn read(from: &mut impl Read) -> io::Result<Stats> {
        let mut stats = Stats::default();
        let (mut text, mut answer) = (Vec::new(), Vec::new());

        while let Some(op) = read_op(from)? {
            read_part(from, &mut text)?;
            read_part(from, &mut answer)?;
            stats.count(op, &text, &answer)?;
        }

        Ok(stats)
    }

    fn count(&mut self, op: Op, text: &[u8], mut answer: &[u8]) -> io::Result<()> {
        self.vectors += 1;
        self.longest = self.longest.max(text.len());

        let class = if op == Op::Fresh {
            0
        } else {
            take_number(&mut answer)?
        };
        *self.classes.entry((op as u8, class)).or_default() += 1;

        if op == Op::Line {
            *self
                .readings
                .entry(bucket(take_number(&mut answer)?))
                .or_default() += 1;

            if class == 0 {
                *self.kinds.entry(take_number(&mut answer)?).or_default() += 1;
            }
        }

        Ok(())
    }

    /// Prints the counts.
    pub fn print(&self, to: &mut impl Write) -> io::Result<()> {
        writeln!(
            to,
            "vectors {}, longest text {} bytes",
            self.vectors, self.longest
        )?;
        writeln!(to, "{:<10} {:>5} {:>10}", "op", "class", "vectors")?;

        for ((op, class), many) in &self.classes {
            let op = format!("{:?}", Op::ALL[usize::from(*op)]).to_lowercase();
            writeln!(to, "{op:<10} {class:>5} {many:>10}")?;
        }

        print_map(to, "record kind", &self.kinds)?;
        print_map(to, "readings from", &self.readings)
    }
}

/// The greatest power of two that is not above n.
fn bucket(n: u64) -> u64 {
    n.checked_ilog2().map_or(0, |power| 1 << power)
}

fn print_map(to: &mut impl Write, title: &str, map: &BTreeMap<u64, u64>) -> io::Result<()> {
    if !map.is_empty() {
        writeln!(to, "{title:<16} {:>10}", "lines")?;
    }

    for (key, many) in map {
        writeln!(to, "{key:>16} {many:>10}")?;
    }

    Ok(())
}
