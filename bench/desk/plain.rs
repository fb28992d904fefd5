//! The same desk in plain Rust, by one thread and with no lock. Its map is of the kind that the desk has: a table from a
//! candidate to the place of its entry, under a quick hasher with a fixed seed, and the entries in one piece.

use std::collections::HashMap;
use std::hash::{BuildHasherDefault, Hasher};
use std::time::Instant;

/// Folds the product of a number and a constant, as the hasher of the desk's map does.
#[derive(Default)]
struct Fold(u64);

impl Hasher for Fold {
    fn finish(&self) -> u64 {
        self.0
    }
    fn write(&mut self, bytes: &[u8]) {
        for byte in bytes {
            self.write_u64(u64::from(*byte));
        }
    }
    fn write_u64(&mut self, number: u64) {
        let product = u128::from(self.0 ^ number ^ 0x243f_6a88_85a3_08d3) * u128::from(0xa409_3822_299f_31d1_u64);
        self.0 = product as u64 ^ (product >> 64) as u64;
    }
}

#[derive(Clone, Copy, PartialEq)]
enum Reply {
    Registered(u32),
    Already(u32),
    NotPlaced,
    Unknown,
}

fn rows(name: &str) -> Vec<String> {
    let text = std::fs::read_to_string(name).expect("a file");
    text.lines().skip(1).map(str::to_owned).collect()
}

fn main() {
    let names: Vec<String> = std::env::args().skip(1).collect();
    let mut places: HashMap<u64, usize, BuildHasherDefault<Fold>> = HashMap::default();
    let mut codes: Vec<Option<u32>> = Vec::new();
    for row in rows(&names[0]) {
        let (candidate, code) = row.split_once(',').expect("two fields");
        places.insert(candidate.parse().expect("a number"), codes.len());
        codes.push(code.parse().ok());
    }
    let requests: Vec<u64> = rows(&names[1]).iter().map(|row| row.parse().expect("a number")).collect();
    let start = Instant::now();
    let mut numbers = vec![0u32; codes.len()];
    let mut history = Vec::with_capacity(requests.len());
    let mut total = 0;
    for request in &requests {
        history.push(match places.get(request) {
            None => Reply::Unknown,
            Some(place) if codes[*place].is_none() => Reply::NotPlaced,
            Some(place) if numbers[*place] > 0 => Reply::Already(numbers[*place]),
            Some(place) => {
                total += 1;
                numbers[*place] = total;
                Reply::Registered(total)
            }
        });
    }
    let time = start.elapsed().as_millis();
    let registered = history.iter().filter(|reply| matches!(reply, Reply::Registered(_))).count();
    println!("{registered} {time}");
}
