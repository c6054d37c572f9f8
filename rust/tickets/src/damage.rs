//! Damage to a ticket's text.

use crate::Rng;

const LETTERS: &[u8] = b"0123456789,\n\r \0ftsvgpn-+.bodi\x7f\x80\xff";

const NUMBERS: [&str; 24] = [
    "",
    "0",
    "1",
    "00",
    "01",
    "-1",
    "+1",
    " 1",
    "2",
    "15",
    "16",
    "19",
    "63",
    "64",
    "65",
    "255",
    "256",
    "511",
    "512",
    "65535",
    "65536",
    "4294967296",
    "18446744073709551615",
    "18446744073709551616",
];

const WORDS: [&str; 12] = [
    "bool",
    "int",
    "bits",
    "unit",
    "struct",
    "offset",
    "read",
    "null",
    "aggregate",
    "f32",
    "variable",
    "Bool",
];

/// Damages a text in one place, or moves a line.
pub fn damage(text: &mut Vec<u8>, rng: &mut Rng) {
    if text.is_empty() {
        text.push(rng.pick(LETTERS));
        return;
    }
    let at = rng.below(text.len());
    match rng.below(24) {
        0 => text[at] = rng.pick(LETTERS),
        1 => text[at] = rng.draw() as u8,
        2 => text[at] ^= 1 << rng.below(8),
        3 => {
            text.remove(at);
        }
        4 => text.insert(at, text[at]),
        5 => text.insert(at, rng.pick(LETTERS)),
        6 => text.truncate(at),
        7 => {
            text.pop();
        }
        8..=10 => lines(text, rng),
        _ => fields(text, rng),
    }
}

/// Drops, doubles, exchanges, empties or cuts lines.
fn lines(text: &mut Vec<u8>, rng: &mut Rng) {
    let mut lines: Vec<Vec<u8>> = text
        .split_inclusive(|&byte| byte == b'\n')
        .map(<[u8]>::to_vec)
        .collect();
    let at = rng.below(lines.len());
    let other = rng.below(lines.len());
    match rng.below(7) {
        0 => {
            lines.remove(at);
        }
        1 => lines.insert(other, lines[at].clone()),
        2 => lines.swap(at, other),
        3 => {
            let next = (at + 1) % lines.len();
            lines.swap(at, next);
        }
        4 => lines.truncate(at),
        5 => lines.insert(at, b"\n".to_vec()),
        _ => {
            let cut = rng.below(lines[at].len());
            lines[at].truncate(cut);
        }
    }
    *text = lines.concat();
}

/// Changes, drops or adds a field of a line.
fn fields(text: &mut Vec<u8>, rng: &mut Rng) {
    let mut lines: Vec<Vec<u8>> = text
        .split(|&byte| byte == b'\n')
        .map(<[u8]>::to_vec)
        .collect();
    // Not behind the last line feed, if there is another line.
    let line = rng.below(lines.len().max(2) - 1);
    let mut fields: Vec<Vec<u8>> = lines[line]
        .split(|&byte| byte == b',')
        .map(<[u8]>::to_vec)
        .collect();
    let at = rng.below(fields.len());
    match rng.below(16) {
        0 => {
            fields.remove(at);
        }
        1 => fields.insert(at, rng.pick(&NUMBERS).into()),
        2 => fields[at] = rng.pick(&WORDS).into(),
        3 => {
            let other = rng.below(fields.len());
            fields.swap(at, other);
        }
        4 => fields[at] = rng.pick(&NUMBERS).into(),
        // The number's neighbour: another reference, range or operation.
        _ => {
            let numbers: Vec<(usize, u64)> = fields
                .iter()
                .enumerate()
                .filter_map(|(at, field)| {
                    let field = std::str::from_utf8(field).ok()?;
                    Some((at, field.parse().ok()?))
                })
                .collect();
            if numbers.is_empty() {
                return;
            }
            let (at, number) = rng.pick(&numbers);
            let number = match rng.below(4) {
                0 => number.saturating_sub(1),
                1 => number.saturating_add(1),
                2 => rng.below(20) as u64,
                _ => rng.below(number.clamp(1, 1 << 20) as usize) as u64,
            };
            fields[at] = number.to_string().into_bytes();
        }
    }
    lines[line] = fields.join(&b',');
    *text = lines.join(&b'\n');
}
