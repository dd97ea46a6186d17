//! Every text of up to some length over an alphabet.

/// Every sequence of 0 to `longest` letters, shorter ones earlier, then in the alphabet's order.
pub fn each<E>(
    alphabet: &[u8],
    longest: usize,
    mut visit: impl FnMut(&[u8]) -> Result<(), E>,
) -> Result<(), E> {
    for length in 0..=longest {
        let mut places = vec![0; length];

        loop {
            let text: Vec<u8> = places
                .iter()
                .map(|&place: &usize| alphabet[place])
                .collect();
            visit(&text)?;

            // The next sequence of this length: the last letter turns fastest.
            let Some(turn) = places.iter().rposition(|&place| place + 1 < alphabet.len()) else {
                break;
            };

            places[turn] += 1;
            places[turn + 1..].fill(0);
        }
    }

    Ok(())
}

/// The bytes of a text with the escapes `\n`, `\t`, `\r`, `\\` and `\xHH`.
pub fn unescape(text: &str) -> Option<Vec<u8>> {
    let mut bytes = Vec::new();
    let mut rest = text.bytes();

    while let Some(byte) = rest.next() {
        bytes.push(match byte {
            b'\\' => match rest.next()? {
                b'n' => b'\n',
                b't' => b'\t',
                b'r' => b'\r',
                b'\\' => b'\\',
                b'x' => (digit(rest.next()?)? << 4) | digit(rest.next()?)?,
                _ => return None,
            },
            _ => byte,
        });
    }

    Some(bytes)
}

fn digit(byte: u8) -> Option<u8> {
    (byte as char).to_digit(16).map(|digit| digit as u8)
}
