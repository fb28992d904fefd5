//! The same walk in plain Rust.

use std::time::Instant;

fn number(text: &[u8], low: u64, high: u64) -> Option<u64> {
    let mut value = 0u64;
    for byte in text {
        if !byte.is_ascii_digit() {
            return None;
        }
        value = value.saturating_mul(10).saturating_add(u64::from(byte - b'0'));
    }
    (!text.is_empty() && (low..=high).contains(&value)).then_some(value)
}

fn worth(row: &[u8]) -> u64 {
    let mut fields = row.split(|byte| *byte == b',');
    let (Some(candidate), Some(kind), Some(rank), None) = (fields.next(), fields.next(), fields.next(), fields.next())
    else {
        return 0;
    };
    let candidate = number(candidate, 1, 99_999_999_999).unwrap_or(0);
    let rank = number(rank, 1, 99_999_999).unwrap_or(0);
    candidate.wrapping_add(rank).wrapping_add(kind.len() as u64)
}

fn walk(bytes: &[u8]) -> u64 {
    let text = bytes.strip_prefix(b"\xef\xbb\xbf").unwrap_or(bytes);
    text.split(|byte| *byte == b'\n')
        .map(|line| line.strip_suffix(b"\r").unwrap_or(line))
        .filter(|line| !line.is_empty())
        .fold(0, |sum: u64, row| sum.wrapping_add(worth(row)))
}

fn main() {
    for name in std::env::args().skip(1) {
        let bytes = std::fs::read(name).expect("a file");
        let start = Instant::now();
        let sum = walk(&bytes);
        println!("{sum} {}", start.elapsed().as_millis());
    }
}
