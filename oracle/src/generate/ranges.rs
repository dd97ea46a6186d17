//! Ranges: numbers, atoms, offsets and ends.
use super::pieces;
use super::random::Random;

/// Pushes a range: one end or two, seldom more.
pub fn range(random: &mut Random, out: &mut String) {
    end(random, out);

    if random.percent(22) {
        out.push(separator(random));
        end(random, out);

        if random.once_in(30) {
            out.push(separator(random));
            end(random, out);
        }
    }
}

/// Pushes a range with something that may spoil it.
pub fn spoiled_range(random: &mut Random, out: &mut String) {
    match random.below(5) {
        0 => {
            pieces::spaces(random, out);
            range(random, out);
        }
        1 => {
            range(random, out);
            pieces::spaces(random, out);
        }
        2 => {
            range(random, out);
            out.push(pieces::any_character(random));
        }
        3 => {
            range(random, out);
            pieces::spaces(random, out);
            range(random, out);
        }
        _ => {
            range(random, out);
            out.pop();
        }
    }
}

fn separator(random: &mut Random) -> char {
    random.letter(",,;")
}

fn end(random: &mut Random, out: &mut String) {
    atom(random, out);
    offsets(random, out);
}

fn atom(random: &mut Random, out: &mut String) {
    match random.weighted(&[34, 33, 8, 4, 7, 2, 2, 2, 8]) {
        0 => {}
        1 => number(random, out),
        2 => out.push('.'),
        3 => out.push('%'),
        4 => out.push('$'),
        5 => out.push_str("\\/"),
        6 => out.push_str("\\?"),
        7 => out.push_str("\\&"),
        _ => {
            out.push('\'');
            mark(random, out);

            if random.once_in(30) {
                number(random, out);
            }
        }
    }
}

fn mark(random: &mut Random, out: &mut String) {
    match random.weighted(&[12, 12, 12, 24, 2, 3]) {
        0 => out.push(random.letter("abcdefghijklmnopqrstuvwxyz")),
        1 => out.push(random.letter("ABCDEFGHIJKLMNOPQRSTUVWXYZ")),
        2 => out.push(random.letter("0123456789")),
        3 => out.push(random.letter("<>[]'`^.\"")),
        4 => out.push(pieces::any_character(random)),
        _ => out.push(pieces::ascii(random)),
    }
}

/// Pushes offsets: most often few, and sometimes such that their sum stays at its edge.
fn offsets(random: &mut Random, out: &mut String) {
    let edgy = random.percent(12);
    let many = match random.weighted(&[45, 25, 14, 13, 3]) {
        3 => random.within(3, 6),
        4 => random.within(7, 40),
        few if edgy => few + 2,
        few => few,
    };
    let (kinds, onward) = if edgy {
        ([30, 10, 60, 0], 80)
    } else {
        ([28, 22, 20, 30], 30)
    };
    let mut sum = Sum {
        next: true,
        size: 0,
    };

    for _ in 0..many {
        let next = if random.percent(onward) {
            sum.next
        } else {
            random.percent(60)
        };
        out.push(if next { '+' } else { '-' });

        let n = match random.weighted(&kinds) {
            0 => 1,
            1 => random.below(10) as u64,
            2 => edge(random, &sum, next),
            _ => {
                let start = out.len();
                number(random, out);
                sum.add(next, out[start..].parse().unwrap_or(0));
                continue;
            }
        };

        if n != 1 || random.percent(20) {
            zeros(random, out);
            out.push_str(&n.to_string());
        }

        sum.add(next, n);
    }
}

/// The running sum of offsets, by which an offset at the edge of 2^64 is found.
struct Sum {
    next: bool,
    size: u64,
}

impl Sum {
    fn add(&mut self, next: bool, n: u64) {
        if next == self.next {
            self.size = self.size.saturating_add(n);
        } else {
            self.size = self.size.abs_diff(n);
            self.next = next;
        }
    }
}

/// A number that takes the running sum to 2^64 - 1 or to 0, or near there.
fn edge(random: &mut Random, sum: &Sum, next: bool) -> u64 {
    let to = if next == sum.next {
        u64::MAX - sum.size
    } else {
        sum.size
    };

    match random.below(4) {
        0 => to.saturating_sub(1),
        1 | 2 => to,
        _ => to.saturating_add(1),
    }
}

/// Pushes digits.
pub fn number(random: &mut Random, out: &mut String) {
    zeros(random, out);

    match random.weighted(&[55, 10, 9, 7, 4, 3, 9]) {
        0 => out.push_str(&random.below(13).to_string()),
        1 => out.push_str(&power(random).to_string()),
        2 => out.push_str(&(u64::MAX - random.below(3) as u64).to_string()),
        3 => out.push_str(&((1 << 63) - 1 + random.below(3) as u64).to_string()),
        4 => out.push_str(&((1 << 64) + random.below(3) as u128).to_string()),
        5 => digits(random, out),
        _ => {
            let shift = random.below(64);
            out.push_str(&(random.any() >> shift).to_string());
        }
    }
}

/// A number beside a border of the record's seven-bit groups.
fn power(random: &mut Random) -> u64 {
    let power = 1 << (7 * random.within(1, 9));
    power - 1 + random.below(3) as u64
}

/// Pushes zeros, seldom and seldom many.
fn zeros(random: &mut Random, out: &mut String) {
    if random.once_in(12) {
        let many = if random.once_in(12) {
            random.within(10, 60)
        } else {
            random.within(1, 3)
        };
        out.extend((0..many).map(|_| '0'));
    }
}

/// Pushes any digits, seldom very many.
fn digits(random: &mut Random, out: &mut String) {
    let many = if random.once_in(20) {
        random.within(26, 400)
    } else {
        random.within(1, 25)
    };
    out.extend((0..many).map(|_| random.letter("0123456789")));
}
