//! The same work as `place place` and `place make`, in plain single-threaded Rust written to be quick:
//! `rustc -O bench/plain.rs`.
//!
//! It reads the three files, makes the same checks, runs whole rounds and prints the placement; or it makes the market of
//! a seed, and prints the summary without its turns. A fault ends it with status 3 and says no more than the file. Times
//! of its phases go to standard error.

mod maker;

use std::collections::HashMap;
use std::hash::{BuildHasherDefault, Hasher};
use std::io::Write;
use std::time::Instant;

const NONE: u8 = u8::MAX;

#[derive(Default)]
struct Mix(u64);

impl Hasher for Mix {
    fn finish(&self) -> u64 {
        self.0
    }
    fn write(&mut self, bytes: &[u8]) {
        for byte in bytes {
            self.write_u64(u64::from(*byte));
        }
    }
    fn write_u32(&mut self, number: u32) {
        self.write_u64(u64::from(number));
    }
    fn write_u64(&mut self, number: u64) {
        let mixed = (self.0 ^ number).wrapping_mul(0x9e37_79b9_7f4a_7c15);
        self.0 = mixed ^ (mixed >> 29);
    }
}

type Index<K> = HashMap<K, u32, BuildHasherDefault<Mix>>;

fn refuse(file: &str) -> ! {
    eprintln!("fault {file}");
    std::process::exit(3)
}

fn line_end(bytes: &[u8]) -> usize {
    bytes.iter().position(|byte| *byte == b'\n').unwrap_or(bytes.len())
}

/// Calls `row` with the place of the file's header among these and the text of each data row; false refuses the file.
fn rows(file: &str, bytes: &[u8], headers: &[&[u8]], mut row: impl FnMut(usize, &[u8]) -> bool) {
    let mut rest = bytes.strip_prefix(b"\xef\xbb\xbf").unwrap_or(bytes);
    let mut version = None;
    while !rest.is_empty() {
        let end = line_end(rest);
        let line = &rest[..end];
        rest = rest.get(end + 1..).unwrap_or(&[]);
        let text = line.strip_suffix(b"\r").unwrap_or(line);
        if text.is_empty() {
            continue;
        }
        if text.len() > 1024 {
            refuse(file)
        }
        match version {
            Some(version) if row(version, text) => {}
            Some(_) => refuse(file),
            None => version = Some(headers.iter().position(|header| *header == text).unwrap_or_else(|| refuse(file))),
        }
    }
    if version.is_none() {
        refuse(file)
    }
}

fn split(text: &[u8], separator: u8) -> (&[u8], Option<&[u8]>) {
    match text.iter().position(|byte| *byte == separator) {
        Some(at) => (&text[..at], Some(&text[at + 1..])),
        None => (text, None),
    }
}

fn number(text: &[u8], low: u64, high: u64) -> Option<u64> {
    let mut value = 0u64;
    for byte in text {
        if !byte.is_ascii_digit() {
            return None;
        }
        value = value.saturating_mul(10).saturating_add(u64::from(byte - b'0'));
    }
    (!text.is_empty() && (low..=high).contains(&value)).then_some(value)
}

fn is_type(text: &[u8]) -> bool {
    (1..=8).contains(&text.len()) && text.iter().all(|b| b.is_ascii_uppercase() || b.is_ascii_digit())
}

#[derive(Default)]
struct Programmes {
    index: Index<u32>,
    codes: Vec<u32>,
    kinds: Vec<u32>,
    quotas: Vec<u32>,
    /// The worst rank that each admits.
    bars: Vec<u32>,
    names: Vec<Vec<u8>>,
}

fn read_programmes(bytes: &[u8]) -> Programmes {
    let mut table = Programmes::default();
    rows("programmes", bytes, &[b"programme,type,quota", b"programme,type,quota,bar"], |version, text| {
        let (code, Some(rest)) = split(text, b',') else { return false };
        let (name, Some(rest)) = split(rest, b',') else { return false };
        let (quota, bar) = if version == 0 { (rest, Some(&b"-"[..])) } else { split(rest, b',') };
        let bar = match bar {
            Some(b"-") => Some(u64::from(u32::MAX)),
            Some(bar) => number(bar, 1, 99_999_999),
            None => None,
        };
        let (Some(code), true, Some(quota), Some(bar)) =
            (number(code, 1, 999_999_999), is_type(name), number(quota, 0, 100_000), bar)
        else {
            return false;
        };
        let kind = table.names.iter().position(|other| other == name).unwrap_or_else(|| {
            table.names.push(name.to_vec());
            table.names.len() - 1
        });
        table.codes.push(code as u32);
        table.kinds.push(kind as u32);
        table.quotas.push(quota as u32);
        table.bars.push(bar as u32);
        table.index.insert(code as u32, table.codes.len() as u32 - 1).is_none()
            && table.names.len() <= 16
            && table.codes.len() <= 60_000
    });
    table
}

#[derive(Default)]
struct Candidates {
    index: Index<u64>,
    numbers: Vec<u64>,
    items: Vec<u32>,
    ends: Vec<u32>,
}

fn read_candidates(bytes: &[u8], programmes: &Programmes) -> Candidates {
    let mut table = Candidates::default();
    rows("candidates", bytes, &[b"candidate,list"], |_, text| {
        let (candidate, Some(list)) = split(text, b',') else { return false };
        let Some(candidate) = number(candidate, 1, 99_999_999_999) else { return false };
        let start = table.items.len();
        let mut rest = if list.is_empty() { None } else { Some(list) };
        while let Some(entries) = rest {
            let (entry, more) = split(entries, b';');
            rest = more;
            let Some(code) = number(entry, 1, 999_999_999) else { return false };
            let Some(programme) = programmes.index.get(&(code as u32)) else { return false };
            if table.items.len() - start == 24 || table.items[start..].contains(programme) {
                return false;
            }
            table.items.push(*programme);
        }
        table.ends.push(table.items.len() as u32);
        table.numbers.push(candidate);
        table.index.insert(candidate, table.numbers.len() as u32 - 1).is_none() && table.numbers.len() <= 3_500_000
    });
    table
}

fn are_distinct(keys: &mut Vec<u64>) -> bool {
    keys.sort_unstable();
    keys.windows(2).all(|pair| pair[0] != pair[1])
}

/// For each type the candidates with a rank in it, best first, each behind the rank in the upper half.
fn read_ranks(bytes: &[u8], programmes: &Programmes, candidates: &Candidates) -> Vec<Vec<u64>> {
    let mut names: Vec<Vec<u8>> = programmes.names.clone();
    let mut pairs = Vec::new();
    let mut places = Vec::new();
    let mut ranked: Vec<Vec<u64>> = vec![Vec::new(); programmes.names.len()];
    rows("ranks", bytes, &[b"candidate,type,rank"], |_, text| {
        let (candidate, Some(rest)) = split(text, b',') else { return false };
        let (name, Some(rank)) = split(rest, b',') else { return false };
        let (Some(candidate), true, Some(rank)) =
            (number(candidate, 1, 99_999_999_999), is_type(name), number(rank, 1, 99_999_999))
        else {
            return false;
        };
        let kind = names.iter().position(|other| other == name).unwrap_or_else(|| {
            names.push(name.to_vec());
            names.len() - 1
        });
        pairs.push(candidate << 25 | kind as u64);
        places.push((kind as u64) << 27 | rank);
        if let (Some(of_kind), Some(known)) = (ranked.get_mut(kind), candidates.index.get(&candidate)) {
            of_kind.push(rank << 32 | u64::from(*known));
        }
        pairs.len() <= 20_000_000
    });
    if !are_distinct(&mut pairs) || !are_distinct(&mut places) {
        refuse("ranks")
    }
    drop((pairs, places));
    for of_kind in &mut ranked {
        of_kind.sort_unstable();
    }
    ranked
}

/// A type's turns: each turn's programmes of the type and their places in the whole list.
struct Turns {
    order: Vec<u32>,
    ends: Vec<u32>,
    items: Vec<u32>,
    places: Vec<u8>,
}

fn turns_of(kind: u32, ranked: Vec<u64>, programmes: &Programmes, candidates: &Candidates) -> Turns {
    let (mut ends, mut items, mut places) = (Vec::with_capacity(ranked.len()), Vec::new(), Vec::new());
    for key in &ranked {
        let (rank, at) = ((key >> 32) as u32, *key as u32 as usize);
        let start = if at == 0 { 0 } else { candidates.ends[at - 1] as usize };
        for (place, programme) in candidates.items[start..candidates.ends[at] as usize].iter().enumerate() {
            if programmes.kinds[*programme as usize] == kind && rank <= programmes.bars[*programme as usize] {
                items.push(*programme);
                places.push(place as u8);
            }
        }
        ends.push(items.len() as u32);
    }
    let order = ranked.iter().map(|key| *key as u32).collect();
    Turns { order, ends, items, places }
}

/// What each candidate holds, and the numbers of rounds and cuts.
fn mechanism(turns: &[Turns], programmes: &Programmes, candidates: &Candidates) -> (Vec<u32>, u32, u32) {
    let count = candidates.numbers.len();
    let mut cuts = vec![NONE; count];
    let (mut rounds, mut cut_count) = (0, 0);
    loop {
        rounds += 1;
        let mut left = programmes.quotas.clone();
        let mut best = vec![(NONE, u32::MAX, 0u8); count];
        for of_kind in turns {
            let mut start = 0usize;
            for (candidate, end) in of_kind.order.iter().zip(&of_kind.ends) {
                for at in start..*end as usize {
                    let place = of_kind.places[at];
                    if place >= cuts[*candidate as usize] {
                        break;
                    }
                    let programme = of_kind.items[at];
                    if left[programme as usize] > 0 {
                        left[programme as usize] -= 1;
                        let held = &mut best[*candidate as usize];
                        held.2 += 1;
                        if place < held.0 {
                            (held.0, held.1) = (place, programme);
                        }
                        break;
                    }
                }
                start = *end as usize;
            }
        }
        let mut several = 0;
        for (cut, held) in cuts.iter_mut().zip(&best) {
            if held.2 > 1 {
                *cut = held.0 + 1;
                several += 1;
            }
        }
        if several == 0 {
            return (best.iter().map(|held| held.1).collect(), rounds, cut_count);
        }
        cut_count += several;
    }
}

fn text_of(held: &[u32], programmes: &Programmes, candidates: &Candidates) -> Vec<u8> {
    let mut text = b"candidate,programme\n".to_vec();
    for (number, programme) in candidates.numbers.iter().zip(held) {
        match programmes.codes.get(*programme as usize) {
            Some(code) => writeln!(text, "{number},{code}"),
            None => writeln!(text, "{number},-"),
        }
        .expect("a vector takes what is written")
    }
    text
}

fn market_of(ranked: Vec<Vec<u64>>, programmes: &Programmes, candidates: &Candidates) -> Vec<Turns> {
    ranked.into_iter().enumerate().map(|(kind, ranked)| turns_of(kind as u32, ranked, programmes, candidates)).collect()
}

/// The summary of a made market, a line for each word.
fn make(words: &[String], phase: impl Fn(&str)) {
    let number = |at: usize| words[at].parse::<u64>().expect("a number");
    let sizes = [number(2), number(3), number(4)].map(|size| size as u32);
    let made = maker::make(number(1), sizes[0], sizes[1], sizes[2]);
    let bars = vec![u32::MAX; made.kinds.len()];
    let programmes = Programmes { kinds: made.kinds, quotas: made.quotas, bars, ..Programmes::default() };
    let numbers = (1..=u64::from(sizes[0])).collect();
    let candidates = Candidates { numbers, items: made.items, ends: made.ends, ..Candidates::default() };
    phase("made");
    let ranked = made.orders.into_iter().map(|order| order.into_iter().map(u64::from).collect()).collect();
    let turns = market_of(ranked, &programmes, &candidates);
    phase("market");
    let (held, rounds, cuts) = mechanism(&turns, &programmes, &candidates);
    phase("rounds");
    println!("candidates {}\nprogrammes {}\ntypes {}", sizes[0], sizes[1], sizes[2]);
    println!("entries {}\nrounds {rounds}\ncuts {cuts}", candidates.items.len());
    println!("placed {}", held.iter().filter(|programme| **programme != u32::MAX).count());
    println!("seats {}", programmes.quotas.iter().map(|quota| u64::from(*quota)).sum::<u64>());
}

fn main() {
    let words: Vec<String> = std::env::args().skip(1).collect();
    let start = Instant::now();
    let phase = |name: &str| eprintln!("{name} {:.3}", start.elapsed().as_secs_f64());
    if words[0] == "make" {
        return make(&words, phase);
    }
    let read = |at: usize| std::fs::read(&words[at]).unwrap_or_else(|_| std::process::exit(4));
    let programmes = read_programmes(&read(1));
    phase("programmes");
    let candidates = read_candidates(&read(2), &programmes);
    phase("candidates");
    let orders = read_ranks(&read(3), &programmes, &candidates);
    phase("ranks");
    let turns = market_of(orders, &programmes, &candidates);
    phase("market");
    let (held, rounds, cuts) = mechanism(&turns, &programmes, &candidates);
    phase(&format!("rounds({rounds},{cuts})"));
    let text = text_of(&held, &programmes, &candidates);
    phase("text");
    std::io::stdout().write_all(&text).expect("standard output takes the text");
    phase("written");
}
