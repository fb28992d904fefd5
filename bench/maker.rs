//! The maker of markets in plain Rust: every word of the generator, taken in turn, as case_maker defines it.

/// PCG XSH RR 64/32 at stream 0 (O'Neill 2014).
struct Words {
    state: u64,
}

impl Words {
    fn of_seed(seed: u64) -> Words {
        let mut words = Words { state: seed.wrapping_add(1) };
        words.step();
        words
    }

    fn step(&mut self) {
        self.state = self.state.wrapping_mul(6_364_136_223_846_793_005).wrapping_add(1);
    }

    fn next(&mut self) -> u32 {
        let state = self.state;
        self.step();
        ((((state >> 18) ^ state) >> 27) as u32).rotate_right((state >> 59) as u32)
    }
}

/// The type and the quota of each programme, the lists one behind another with their ends, and the candidates of each
/// type in turn order.
pub struct Made {
    pub kinds: Vec<u32>,
    pub quotas: Vec<u32>,
    pub items: Vec<u32>,
    pub ends: Vec<u32>,
    pub orders: Vec<Vec<u32>>,
}

pub fn make(seed: u64, candidates: u32, programmes: u32, types: u32) -> Made {
    let mut words = Words::of_seed(seed);
    let bound = 2 * candidates.checked_div(programmes).unwrap_or(0) + 2;
    let kinds = (0..programmes).map(|programme| programme % types).collect();
    let quotas = (0..programmes).map(|_| (words.next() % bound).min(100_000)).collect();
    let (mut items, mut ends) = (Vec::new(), Vec::with_capacity(candidates as usize));
    let mut keys: Vec<Vec<u64>> = (0..types).map(|_| Vec::with_capacity(candidates as usize)).collect();
    for candidate in 0..candidates {
        let start = items.len();
        for _ in 0..(words.next() % 25).min(programmes) {
            let entry = words.next() % programmes;
            if !items[start..].contains(&entry) {
                items.push(entry);
            }
        }
        ends.push(items.len() as u32);
        for of_kind in &mut keys {
            let word = words.next();
            if word % 8 != 0 {
                of_kind.push(u64::from(word) << 32 | u64::from(candidate));
            }
        }
    }
    for of_kind in &mut keys {
        of_kind.sort_unstable();
    }
    let orders = keys.iter().map(|of_kind| of_kind.iter().map(|key| *key as u32).collect()).collect();
    Made { kinds, quotas, items, ends, orders }
}
