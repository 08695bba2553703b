//! The library beside an independent implementation in plain Rust: random duty sets, valid, faulty and at the edges of
//! every range, with wanted block lengths that are the greatest, shorter or refused; tables built, patched, cut,
//! extended and bit-flipped, and tables whose runs are in order but lie in one another; questions near tick 0, anywhere
//! and near 2^64; dispatcher states valid, stale and made up; counts up to 10^12; plans of shares, and questions about
//! them.
//!
//! TICKPLUME_COMPARISONS sets how many comparisons are made at the least, in all (200,000 by default). The seeds 1 to 8
//! have equal shares of them, or TICKPLUME_SEED, any 64-bit number, has them all. Above 1,000,000 the progress is
//! shown.

#[path = "../apart/plain.rs"]
mod plain;
#[path = "../apart/random.rs"]
mod random;
#[path = "../apart/sets.rs"]
mod sets;

use random::Random;
use sets::Set;
use tickplume::{calls, Engine, Held, Refusal};

fn pair(refusal: Refusal) -> (u8, u64) {
    (refusal.number, refusal.place)
}

/// The number of a duty, or none where an engine is idle.
fn duty(held: Held) -> Option<u32> {
    match held {
        Held::Idle => None,
        Held::Duty(i) => Some(i),
    }
}

fn setting(name: &str) -> Option<u64> {
    std::env::var(name).ok().map(|text| text.parse().expect("a number"))
}

/// One comparison for each call below.
#[derive(Default)]
struct Comparison {
    made: u64,
    accepted: u64,
    shorter: u64,
    plans: u64,
}

impl Comparison {
    /// Draws sets and tables from one seed until so many more comparisons are made.
    fn draw(&mut self, seed: u64, share: u64, show: bool) {
        println!("seed {seed}"); // shown where a comparison fails
        let mut random = Random::new(seed);
        let end = self.made + share;
        while self.made < end {
            let before = self.made / 1_000_000;
            self.round(&mut random);
            let now = self.made / 1_000_000;
            if show && now > before {
                eprintln!("{now} million comparisons");
            }
        }
    }

    /// One set, its table and patches of it if it has one, a table of runs in order, one whose duties go from row to row,
    /// and some bytes drawn at random.
    fn round(&mut self, random: &mut Random) {
        if let Some(table) = self.build(random) {
            self.table(random, &table);
            for _ in 0..4 {
                let patched = sets::patch(random, &table);
                self.table(random, &patched);
            }
        }
        let ordered = sets::ordered_table(random);
        self.table(random, &ordered);
        let woven = sets::woven_table(random);
        self.table(random, &woven);
        let noise: Vec<u8> = (0..random.below(60)).map(|_| random.below(5) as u8).collect();
        self.table(random, &noise);
        let set = share_set(random);
        self.shares(random, &set);
    }

    fn same<T: PartialEq + std::fmt::Debug>(&mut self, what: &str, ours: T, theirs: T, about: &dyn std::fmt::Debug) {
        self.made += 1;
        assert!(ours == theirs, "{what}: the library says {ours:?}, plain Rust {theirs:?}, of {about:?}");
    }

    fn build(&mut self, random: &mut Random) -> Option<Vec<u8>> {
        let set = match random.below(4) {
            0 => sets::chained_set(random),
            1 => sets::odd_set(random),
            2 => sets::whole_set(random, 2_000),
            _ => sets::whole_set(random, 30),
        };
        let room = if random.once_in(4) { random.below(400) as usize } else { 2_000 };
        let (mut ours, mut theirs) = (vec![7u8; room], vec![7u8; room]);
        let a = calls::build(set.engines, &set.services, &set.periods, set.block_length, &mut ours).map_err(pair);
        let b = plain::build(set.engines, &set.services, &set.periods, set.block_length, &mut theirs);
        self.same("build", a, b, &set);
        self.same("the built bytes", &ours, &theirs, &set);
        a.ok().map(|n| ours[..n].to_vec())
    }

    /// A plan of shares in a list that is long enough or not, and questions of it.
    fn shares(&mut self, random: &mut Random, set: &Set) {
        let room = if random.once_in(4) { random.below(600) as usize } else { 40_000 };
        let lent = vec![7u32; room];
        let (mut ours, mut first, mut other) = (lent.clone(), lent.clone(), lent);
        let a = calls::shares(set.engines, &set.services, &set.periods, &mut ours).map_err(pair);
        let a = a.map(|r| (r.entries, r.block_length, r.blocks));
        let b = plain::shares(set.engines, &set.services, &set.periods, &mut first);
        let c = plain::shares_copied(set.engines, &set.services, &set.periods, &mut other);
        self.same("shares", a, b, set);
        self.same("shares, copied", a, c, set);
        self.same("the allotments", &ours, &first, set);
        self.same("the allotments, copied", &ours, &other, set);
        self.plans += a.is_ok() as u64;
        for _ in 0..6 {
            let engine = random.below(set.engines as u64 + 2) as u32;
            let tick = far(random);
            let held = calls::share_at(set.engines, &set.services, &set.periods, Engine(engine), tick);
            let theirs = plain::share_at(set.engines, &set.services, &set.periods, engine, tick);
            self.same("share_at", held.map(duty).map_err(pair), theirs, &(engine, tick, set));
        }
    }

    fn table(&mut self, random: &mut Random, table: &[u8]) {
        let ours = calls::judge(table).map(|r| (r.block_length, r.engines, r.duties, r.runs)).map_err(pair);
        for plainly in [plain::judge, plain::judge_pairwise] {
            let theirs = plainly(table).map(|p| (p.block_length, p.engines, p.duties, p.runs));
            self.same("judge", ours, theirs, &table);
        }
        let asked = if ours.is_ok() { 6 } else { 1 };
        self.accepted += ours.is_ok() as u64;
        self.shorter += (ours.is_ok() && sets::is_shorter(table)) as u64;
        for _ in 0..asked {
            self.question(random, table);
            self.count(random, table);
        }
        self.dispatch(random, table);
    }

    fn question(&mut self, random: &mut Random, table: &[u8]) {
        let most = if random.once_in(20) { 1 << 32 } else { 34 };
        let engine = random.below(most) as u32;
        let tick = far(random);
        let ours = calls::question(table, Engine(engine), tick).map_err(pair).map(|r| (r.row.0, duty(r.held)));
        for plainly in [plain::question, plain::question_pairwise] {
            self.same("question", ours, plainly(table, engine, tick), &(engine, tick, table));
        }
    }

    fn count(&mut self, random: &mut Random, table: &[u8]) {
        let blocks = match random.below(4) {
            0 => random.below(5),
            1 => 1_000_000_000_000 - 2 + random.below(4),
            2 => random.next(),
            _ => random.below(1_000_000_000_000),
        };
        self.same("count", calls::count(table, blocks).map_err(pair), plain::count(table, blocks), &(blocks, table));
    }

    fn dispatch(&mut self, random: &mut Random, table: &[u8]) {
        let block = far(random);
        let started = calls::start(table, block).map_err(pair);
        self.same("start", started, plain::start(table, block), &(block, table));
        let mut state = started.unwrap_or([0; 33]);
        match random.below(4) {
            0 => state[0] = state[0].wrapping_add(1),
            1 => state[1 + random.below(32) as usize] = far(random),
            _ => {}
        }
        let engine = random.below(34) as u32;
        let told = calls::row(table, &state, Engine(engine)).map_err(pair).map(|r| r.0);
        self.same("row", told, plain::row(table, &state, engine), &(state, table));
        let (mut ours, mut theirs) = (state, state);
        let a = calls::next(table, &mut ours).map_err(pair);
        let b = plain::next(table, &mut theirs);
        self.same("next", a, b, &(state, table));
        self.same("the next state", ours, theirs, &table);
    }
}

/// A set for shares, seldom one of some 4,096 blocks.
fn share_set(random: &mut Random) -> Set {
    match random.below(6) {
        0 => sets::share_set(random, 1_000_000, 60),
        1 if random.once_in(20) => sets::long_set(random),
        2 => sets::ahead_set(random),
        3 => sets::crowded_set(random),
        4 => sets::odd_share_set(random),
        _ => sets::share_set(random, 10, 360),
    }
}

/// A 64-bit number near 0, near 2^64 or anywhere.
fn far(random: &mut Random) -> u64 {
    match random.below(3) {
        0 => random.below(200),
        1 => u64::MAX - random.below(200),
        _ => random.next(),
    }
}

/// Two runs under a head that tells of so many engines and duties, with a record for each duty.
fn table_telling(engines: u8, duties: u8) -> Vec<u8> {
    let mut b = vec![1, 9, 0, 0, 0, engines, duties];
    for _ in 0..duties {
        b.extend_from_slice(&[2, 5, 0, 0, 0, 9, 0, 0, 0]);
    }
    b.extend_from_slice(&[3, 0, 0, 0, 0, 0, 0, 5, 0, 0, 0]);
    b.extend_from_slice(&[3, 0, 0, 6, 0, 0, 0, 3, 0, 0, 0]);
    b.extend_from_slice(&[4, 2, 0]);
    b
}

/// A patch may leave a head that tells of no engines or no duties, and the next patch draws a row or a duty from it. At
/// random that comes once in millions of comparisons, so it is made by hand here.
#[test]
fn any_bytes_are_patched_and_judged_alike() {
    let mut random = Random::new(1);
    let mut comparison = Comparison::default();
    let mut kinds = vec![vec![], vec![1], vec![3; 40]];
    for told in [0, 1, 255] {
        kinds.extend([table_telling(told, 0), table_telling(told, 1), table_telling(told, 255)]);
    }
    for bytes in kinds {
        for _ in 0..200 {
            let patched = sets::patch(&mut random, &bytes);
            comparison.table(&mut random, &patched);
        }
    }
}

#[test]
fn sets_that_have_no_plan_of_shares_are_refused_alike() {
    let mut random = Random::new(1);
    let mut comparison = Comparison::default();
    for set in sets::refused_sets() {
        let refusal = calls::shares(set.engines, &set.services, &set.periods, &mut [0; 100]).unwrap_err();
        assert_eq!(refusal.number, 23);
        for _ in 0..20 {
            comparison.shares(&mut random, &set);
        }
    }
    assert_eq!(comparison.plans, 0);
}

#[test]
fn the_library_and_plain_rust_agree() {
    let wanted = setting("TICKPLUME_COMPARISONS").unwrap_or(200_000);
    let seeds = setting("TICKPLUME_SEED").map_or_else(|| (1..=8).collect(), |seed| vec![seed]);
    let mut comparison = Comparison::default();
    for &seed in &seeds {
        comparison.draw(seed, wanted.div_ceil(seeds.len() as u64), wanted > 1_000_000);
    }
    println!(
        "{} comparisons, {} accepted tables, {} of them in shorter blocks, {} plans of shares",
        comparison.made, comparison.accepted, comparison.shorter, comparison.plans
    );
    assert!(comparison.accepted * 20 > comparison.made / 30, "too few accepted tables");
    assert!(comparison.shorter * 5 > comparison.accepted, "too few tables in shorter blocks");
    assert!(comparison.plans * 20 > comparison.made / 30, "too few plans of shares");
}
