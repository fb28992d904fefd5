//! Rounds over shared words in plain Rust: the steps of a team's turn as gate_workers makes them, over the same words, on
//! the market that case_maker makes of the same seed. team SEED CANDIDATES PROGRAMMES TYPES WORKERS prints the
//! milliseconds of what the market draws, of its tables and of its rounds, and then rounds, cuts and turns.

mod maker;

use std::sync::atomic::{AtomicU64, Ordering::SeqCst};
use std::time::Instant;

/// What a market keeps of one type: who has which turn, and the lists of its turns over the numbers of its programmes.
struct Kind {
    order: Vec<u32>,
    turns: Vec<u32>,
    members: Vec<u32>,
    quotas: Vec<u32>,
    items: Vec<u32>,
    places: Vec<u8>,
    bounds: Vec<u32>,
}

struct Market {
    made: maker::Made,
    locals: Vec<u32>,
    kinds: Vec<Kind>,
}

impl Market {
    fn of(mut made: maker::Made, types: u32) -> Market {
        let mut members = vec![Vec::new(); types as usize];
        let mut locals = Vec::with_capacity(made.kinds.len());
        for (programme, kind) in made.kinds.iter().enumerate() {
            locals.push(members[*kind as usize].len() as u32);
            members[*kind as usize].push(programme as u32);
        }
        let orders = std::mem::take(&mut made.orders);
        let mut market = Market { made, locals, kinds: Vec::new() };
        for (kind, (order, members)) in orders.into_iter().zip(members).enumerate() {
            let of_kind = market.kind_of(kind as u32, order, members);
            market.kinds.push(of_kind);
        }
        market
    }

    fn kind_of(&self, kind: u32, order: Vec<u32>, members: Vec<u32>) -> Kind {
        let mut turns = vec![order.len() as u32; self.made.ends.len()];
        let (mut items, mut places, mut bounds) = (Vec::new(), Vec::new(), Vec::with_capacity(order.len() + 1));
        bounds.push(0);
        for (turn, candidate) in order.iter().enumerate() {
            turns[*candidate as usize] = turn as u32;
            for (place, programme) in self.list(*candidate).iter().enumerate() {
                if self.made.kinds[*programme as usize] == kind {
                    items.push(self.locals[*programme as usize]);
                    places.push(place as u8);
                }
            }
            bounds.push(items.len() as u32);
        }
        let quotas = members.iter().map(|programme| self.made.quotas[*programme as usize]).collect();
        Kind { order, turns, members, quotas, items, places, bounds }
    }

    fn list(&self, candidate: u32) -> &[u32] {
        let at = candidate as usize;
        let start = if at == 0 { 0 } else { self.made.ends[at - 1] };
        &self.made.items[start as usize..self.made.ends[at] as usize]
    }
}

/// The dictatorship of a type from a turn on.
struct Dict {
    items: Vec<u32>,
    bounds: Vec<u32>,
    quotas: Vec<u32>,
    fills: Vec<u32>,
}

impl Dict {
    fn of(kind: &Kind, cuts: &[u8], from: usize, fills: Vec<u32>) -> Dict {
        let mut items = Vec::with_capacity(kind.items.len());
        let mut bounds = Vec::with_capacity(kind.order.len() + 1 - from);
        bounds.push(0);
        for turn in from..kind.order.len() {
            let cut = cuts[kind.order[turn] as usize];
            for at in kind.bounds[turn] as usize..kind.bounds[turn + 1] as usize {
                if kind.places[at] < cut {
                    items.push(kind.items[at]);
                }
            }
            bounds.push(items.len() as u32);
        }
        Dict { items, bounds, quotas: kind.quotas.clone(), fills }
    }

    fn turns(&self) -> usize {
        self.bounds.len() - 1
    }

    fn list(&self, turn: usize) -> &[u32] {
        &self.items[self.bounds[turn] as usize..self.bounds[turn + 1] as usize]
    }
}

/// The shared words: the claim number, the mark, the seat counts, the cells, and the flags of full programmes.
struct Words {
    words: Vec<AtomicU64>,
    cells: usize,
    flags: usize,
}

const CLAIM: usize = 0;
const MARK: usize = 1;
const SEATS: usize = 2;
const FLAGS_PER_WORD: usize = 64;

fn is_raised(flags: u64, programme: u32) -> bool {
    flags >> (programme as usize % FLAGS_PER_WORD) & 1 == 1
}

impl Words {
    fn open(dict: &Dict) -> Words {
        let cells = SEATS + dict.fills.len();
        let flags = cells + dict.turns();
        let flag_words = dict.fills.len().div_ceil(FLAGS_PER_WORD);
        let mut words = Vec::with_capacity(flags + flag_words);
        words.extend([0, 0].map(AtomicU64::new));
        words.extend(dict.fills.iter().map(|fill| AtomicU64::new(u64::from(*fill))));
        words.extend((0..dict.turns() + flag_words).map(|_| AtomicU64::new(0)));
        for (programme, (fill, quota)) in dict.fills.iter().zip(&dict.quotas).enumerate() {
            if fill >= quota {
                let word = words[flags + programme / FLAGS_PER_WORD].get_mut();
                *word |= 1 << (programme % FLAGS_PER_WORD);
            }
        }
        Words { words, cells, flags }
    }

    fn is_full(&self, dict: &Dict, programme: u32) -> bool {
        self.words[SEATS + programme as usize].load(SeqCst) >= u64::from(dict.quotas[programme as usize])
    }

    /// The first place of a list whose programme has a seat left: one load of a word of flags passes the entries of that
    /// word which are raised, and a seat count is read only at a lowered flag.
    fn open_place(&self, dict: &Dict, list: &[u32]) -> usize {
        let mut place = 0;
        while place < list.len() {
            let word = list[place] as usize / FLAGS_PER_WORD;
            let flags = self.words[self.flags + word].load(SeqCst);
            while place < list.len() && list[place] as usize / FLAGS_PER_WORD == word && is_raised(flags, list[place]) {
                place += 1;
            }
            if place < list.len() && list[place] as usize / FLAGS_PER_WORD == word {
                if !self.is_full(dict, list[place]) {
                    return place;
                }
                place += 1;
            }
        }
        place
    }

    fn work(&self, dict: &Dict) {
        loop {
            let turn = self.words[CLAIM].fetch_add(1, SeqCst) as usize;
            if turn >= dict.turns() {
                return;
            }
            let place = self.open_place(dict, dict.list(turn));
            self.words[self.cells + turn].store(2 * place as u64 + 1, SeqCst);
            self.try_mark(dict);
        }
    }

    /// Takes a seat, and raises the programme's flag where it was the last.
    fn take_seat(&self, dict: &Dict, programme: u32) {
        let before = self.words[SEATS + programme as usize].fetch_add(1, SeqCst);
        if before + 1 >= u64::from(dict.quotas[programme as usize]) {
            let at = programme as usize;
            self.words[self.flags + at / FLAGS_PER_WORD].fetch_or(1 << (at % FLAGS_PER_WORD), SeqCst);
        }
    }

    fn try_mark(&self, dict: &Dict) {
        let found = self.words[MARK].fetch_or(1, SeqCst);
        if found & 1 == 1 {
            return;
        }
        let mut turn = (found / 2) as usize;
        while turn < dict.turns() {
            let posted = self.words[self.cells + turn].load(SeqCst);
            if posted == 0 {
                break;
            }
            let list = dict.list(turn);
            let mut place = (posted / 2) as usize;
            while place < list.len() && self.is_full(dict, list[place]) {
                place += 1;
            }
            if let Some(programme) = list.get(place) {
                self.take_seat(dict, *programme);
            }
            self.words[self.cells + turn].store(2 * place as u64 + 2, SeqCst);
            turn += 1;
        }
        self.words[MARK].store(2 * turn as u64, SeqCst);
    }

    fn run(&self, dict: &Dict, workers: u32) {
        std::thread::scope(|threads| {
            for _ in 1..workers {
                threads.spawn(|| self.work(dict));
            }
            self.work(dict);
        });
        self.try_mark(dict);
    }
}

/// What each candidate has chosen in a type: one more than the programme, or 0.
type Choices = Vec<u32>;

fn run_kind(market: &Market, kind: &Kind, cuts: &[u8], from: usize, choices: &mut Choices, workers: u32) -> u64 {
    let mut fills = vec![0; kind.quotas.len()];
    for candidate in &kind.order[..from] {
        if let Some(programme) = choices[*candidate as usize].checked_sub(1) {
            fills[market.locals[programme as usize] as usize] += 1;
        }
    }
    let dict = Dict::of(kind, cuts, from, fills);
    let words = Words::open(&dict);
    words.run(&dict, workers);
    for turn in 0..dict.turns() {
        let place = words.words[words.cells + turn].load(SeqCst) as usize / 2 - 1;
        let chosen = dict.list(turn).get(place).map_or(0, |local| kind.members[*local as usize] + 1);
        choices[kind.order[from + turn] as usize] = chosen;
    }
    dict.turns() as u64
}

/// Cuts whoever has several choices below the best, and says how many they are and the first changed turn of each type.
fn cut_lists(market: &Market, all: &[Choices], cuts: &mut [u8]) -> (u32, Vec<usize>) {
    let mut several = 0;
    let mut firsts: Vec<usize> = market.kinds.iter().map(|kind| kind.order.len()).collect();
    for candidate in 0..cuts.len() {
        if all.iter().filter(|choices| choices[candidate] != 0).count() < 2 {
            continue;
        }
        several += 1;
        let list = market.list(candidate as u32);
        let is_chosen = |programme: &u32| all[market.made.kinds[*programme as usize] as usize][candidate] == programme + 1;
        let best = list.iter().position(is_chosen).expect("a choice stands in the list");
        cuts[candidate] = best as u8 + 1;
        for programme in list[best + 1..].iter().filter(|programme| is_chosen(programme)) {
            let kind = market.made.kinds[*programme as usize] as usize;
            firsts[kind] = firsts[kind].min(market.kinds[kind].turns[candidate] as usize);
        }
    }
    (several, firsts)
}

fn main() {
    let numbers: Vec<u64> = std::env::args().skip(1).map(|word| word.parse().expect("a number")).collect();
    let (seed, [candidates, programmes, types, workers]) = (numbers[0], [1, 2, 3, 4].map(|at| numbers[at] as u32));
    let start = Instant::now();
    let made = maker::make(seed, candidates, programmes, types);
    let drawn = start.elapsed().as_millis();
    let start = Instant::now();
    let market = Market::of(made, types);
    let built = start.elapsed().as_millis();
    let start = Instant::now();
    let mut cuts: Vec<u8> = (0..candidates).map(|candidate| market.list(candidate).len() as u8).collect();
    let mut all: Vec<Choices> = vec![vec![0; candidates as usize]; types as usize];
    let mut firsts = vec![0; types as usize];
    let (mut rounds, mut all_cuts, mut turns) = (0, 0, 0);
    loop {
        rounds += 1;
        for (kind, of_kind) in market.kinds.iter().enumerate() {
            if firsts[kind] < of_kind.order.len() {
                turns += run_kind(&market, of_kind, &cuts, firsts[kind], &mut all[kind], workers);
            }
        }
        let several;
        (several, firsts) = cut_lists(&market, &all, &mut cuts);
        all_cuts += several;
        if several == 0 {
            break;
        }
    }
    println!("{drawn} {built} {} rounds {rounds} cuts {all_cuts} turns {turns}", start.elapsed().as_millis());
}
