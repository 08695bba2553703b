//! The second program: compares the proved library with planners written apart that fill blocks tick by tick, on many
//! sets and patched tables, on as many tables whose runs are in order but lie in one another, on as many whose duties go
//! from row to row, and on as many sets for plans of shares. Blocks have the periods' greatest common divisor or are
//! shorter.
//!
//!     cargo run --release --example compare -- [SETS] [--plant ERROR]
//!
//! It says how many it compared and which refusals, chain lengths and causes of 23 it met, and ends with status 1 at
//! the first difference, or where it did not meet all of them. With --plant the second planner has an error that looks
//! right, which must be seen: backwards, one-ring or never in how rows move; ignores-length or length-late in how the
//! builder takes a block length, greatest-alone in how the judge does; last-chosen, forgets-need or negative-as-0 in
//! the steps for shares.

#[path = "../apart/filler.rs"]
mod filler;
#[path = "../apart/random.rs"]
mod random;
#[path = "../apart/sets.rs"]
mod sets;
#[path = "../apart/shares.rs"]
mod shares;
#[path = "compare/shares.rs"]
mod shares_compared;

use filler::{Block, Lengths, Refused, Turn, Walk};
use random::Random;
use sets::Set;
use shares::Steps;
use std::collections::BTreeSet;
use tickplume::{calls, Engine, Held, Refusal};

const PARTS: u64 = 8;

#[derive(Default)]
struct Seen {
    sets: u64,
    tables: u64,
    accepted: u64,
    /// Of these, how many have blocks that are shorter than their periods' greatest common divisor.
    shorter: u64,
    questions: u64,
    counts: u64,
    states: u64,
    refusals: BTreeSet<u8>,
    chains: BTreeSet<usize>,
    block_lengths: BTreeSet<u64>,
    shares: shares_compared::Seen,
}

/// What the second program does, and where it has an error planted.
#[derive(Clone, Copy)]
struct Apart {
    turn: Turn,
    lengths: Lengths,
    steps: Steps,
}

const PUBLISHED: Apart = Apart { turn: Turn::Published, lengths: Lengths::Published, steps: Steps::Published };

fn as_pair(refusal: Refusal) -> Refused {
    (refusal.number, refusal.place)
}

fn differ<T>(
    what: &str,
    ours: impl std::fmt::Debug,
    theirs: impl std::fmt::Debug,
    about: impl std::fmt::Debug,
) -> Result<T, String> {
    Err(format!("{what}: the library says {ours:?}, the second program {theirs:?}\nof {about:?}"))
}

/// One duty set, with a buffer that is long enough, exact or one byte short.
fn compare_set(seen: &mut Seen, random: &mut Random, set: &Set, apart: Apart) -> Result<(), String> {
    let Set { engines, services, periods, block_length } = set;
    let built = |room| filler::build(*engines as u64, services, periods, *block_length, room, apart.lengths);
    let room = match (built(usize::MAX), random.below(3)) {
        (Ok(table), 0) => table.len(),
        (Ok(table), 1) if random.once_in(3) => table.len() - 1,
        _ => tickplume::MOST_BYTES,
    };
    let theirs = built(room);
    let mut buffer = vec![0xa5u8; room];
    let ours = calls::build(*engines, services, periods, *block_length, &mut buffer).map_err(as_pair);
    seen.sets += 1;
    match (&ours, &theirs) {
        (Ok(n), Ok(table)) => {
            let mut whole = table.clone();
            whole.resize(room, 0xa5);
            if *n != table.len() || buffer != whole {
                return differ("build", &buffer, &whole, set);
            }
            compare_table(seen, random, table, apart)?;
            for _ in 0..2 {
                let patched = sets::patch(random, table);
                compare_table(seen, random, &patched, apart)?;
            }
            Ok(())
        }
        (Err(a), Err(b)) if a == b => {
            if buffer.iter().any(|&x| x != 0xa5) {
                return differ("a refused build changed the buffer", &buffer, 0xa5, set);
            }
            seen.refusals.insert(a.0);
            Ok(())
        }
        _ => differ("build", ours, theirs.as_ref().map(Vec::len), set),
    }
}

/// Any bytes: judged, and if accepted asked, dispatched and counted.
fn compare_table(seen: &mut Seen, random: &mut Random, table: &[u8], apart: Apart) -> Result<(), String> {
    seen.tables += 1;
    let theirs = filler::judge(table, apart.lengths);
    let ours = calls::judge(table).map_err(as_pair);
    match (ours, theirs) {
        (Ok(reading), Ok(block)) => {
            let told =
                (reading.block_length as u64, reading.engines as usize, reading.duties as usize, reading.runs as usize);
            let counted = (block.ticks, block.rows.len(), block.duties.len(), filler::runs(&block).len());
            if told != counted {
                return differ("judge", told, counted, table);
            }
            seen.accepted += 1;
            seen.shorter += sets::is_shorter(table) as u64;
            seen.chains.extend(filler::chains(&block));
            seen.block_lengths.insert(block.ticks);
            compare_walk(seen, random, table, &block, apart.turn)
        }
        (Err(a), Err(b)) if a == b => {
            seen.refusals.insert(a.0);
            let asked = calls::question(table, Engine(0), 0).map_err(as_pair);
            let counted = calls::count(table, u64::MAX).map_err(as_pair);
            let started = calls::start(table, 0).map_err(as_pair);
            if asked != Err(a) || counted != Err(a) || started != Err(a) {
                return differ("refused tables elsewhere", (asked, counted, started), a, table);
            }
            Ok(())
        }
        (ours, theirs) => differ("judge", ours, theirs.map(|_| "accepted"), table),
    }
}

/// The walk of an accepted table over some blocks: every engine, dispatcher and loads at each.
fn compare_walk(seen: &mut Seen, random: &mut Random, table: &[u8], block: &Block, turn: Turn) -> Result<(), String> {
    let m = block.rows.len();
    let blocks = if block.ticks * m as u64 > 4000 { 3 } else { 7 };
    let mut walk = Walk::new(block, turn);
    let loads = filler::loads(block, blocks, turn);
    let mut state = calls::start(table, 0).map_err(|r| r.to_string())?;
    for b in 0..=blocks {
        let sum: u64 = loads[..b as usize].iter().sum();
        let ours = calls::count(table, b).map_err(as_pair);
        seen.counts += 1;
        if ours != Ok(sum) {
            return differ("count", ours, sum, (b, table));
        }
    }
    for b in 0..blocks {
        let mut rows = vec![0u64; 33];
        rows[0] = b;
        for (e, &r) in walk.rows.iter().enumerate() {
            rows[e + 1] = r as u64;
        }
        seen.states += 1;
        if state[..] != rows[..] || calls::start(table, b).map_err(as_pair) != Ok(state) {
            return differ("state", state, rows, table);
        }
        for e in 0..m {
            for u in units(random, block.ticks) {
                let held = match block.rows[walk.rows[e]][u as usize] {
                    Some(i) => Held::Duty(i as u32),
                    None => Held::Idle,
                };
                let reply = calls::question(table, Engine(e as u32), b * block.ticks + u).map_err(as_pair);
                seen.questions += 1;
                if !reply.is_ok_and(|r| r.held == held && r.row.0 as usize == walk.rows[e]) {
                    return differ("question", reply, (held, walk.rows[e]), (e, b, u, table));
                }
            }
            let told = calls::row(table, &state, Engine(e as u32)).map_err(as_pair);
            if !told.is_ok_and(|r| r.0 as usize == walk.rows[e]) {
                return differ("row", told, walk.rows[e], table);
            }
        }
        walk.step();
        calls::next(table, &mut state).map_err(|r| r.to_string())?;
    }
    compare_refusals(seen, random, table, &state, m as u32)
}

/// The units of a block that are asked: all of a short one, its ends and some others of a long one.
fn units(random: &mut Random, ticks: u64) -> Vec<u64> {
    if ticks <= 64 {
        return (0..ticks).collect();
    }
    let mut out = vec![0, 1, ticks - 2, ticks - 1];
    out.extend((0..12).map(|_| random.below(ticks)));
    out
}

/// 18 to 21, and states made up or left behind.
fn compare_refusals(
    seen: &mut Seen,
    random: &mut Random,
    table: &[u8],
    state: &[u64; 33],
    engines: u32,
) -> Result<(), String> {
    let mut expect = |what: &str, got: Option<Refusal>, number: u8| {
        seen.refusals.insert(number);
        match got {
            Some(r) if r.number == number && r.place == 0 => Ok(()),
            got => differ(what, got, number, table),
        }
    };
    let other = Engine(engines + random.below(4) as u32);
    expect("question of no engine", calls::question(table, other, random.next()).err(), 18)?;
    expect("row of no engine", calls::row(table, state, other).err(), 18)?;
    expect("count of too many", calls::count(table, 1_000_000_000_001 + random.below(9)).err(), 19)?;
    let mut made_up = *state;
    let entry = 1 + random.below(32) as usize;
    made_up[entry] += 1 + random.below(3);
    expect("row of a made-up state", calls::row(table, &made_up, Engine(0)).err(), 20)?;
    let before = made_up;
    expect("next of a made-up state", calls::next(table, &mut made_up).err(), 20)?;
    let mut last = calls::start(table, u64::MAX).map_err(|r| r.to_string())?;
    let kept = last;
    expect("next of the last block", calls::next(table, &mut last).err(), 21)?;
    if made_up != before || last != kept {
        return differ("a refused call changed the state", made_up, before, table);
    }
    Ok(())
}

impl Seen {
    fn add(&mut self, other: Seen) {
        self.sets += other.sets;
        self.tables += other.tables;
        self.accepted += other.accepted;
        self.shorter += other.shorter;
        self.questions += other.questions;
        self.counts += other.counts;
        self.states += other.states;
        self.refusals.extend(other.refusals);
        self.chains.extend(other.chains);
        self.block_lengths.extend(other.block_lengths);
        self.shares.add(other.shares);
    }

    /// Whether every refusal, chain length and cause was met, and blocks that are shorter than they might be.
    fn all(&self) -> bool {
        (1..=8).chain(10..=21).chain([24]).all(|n| self.refusals.contains(&n))
            && (1..=32).all(|n| self.chains.contains(&n))
            && self.shorter * 5 > self.accepted
            && self.shares.all()
    }
}

/// So many sets of each kind, drawn from a seed.
fn part(seed: u64, sets: u64, apart: Apart) -> Result<Seen, String> {
    let mut seen = Seen::default();
    let mut random = Random::new(seed);
    let mut other = Random::new(seed + 1_000);
    let mut ordered = Random::new(seed + 2_000);
    let mut woven = Random::new(seed + 3_000);
    for set in sets::refused_sets() {
        shares_compared::compare(&mut seen.shares, &mut other, &set, apart.steps)?;
    }
    for k in 0..sets {
        let set = match k % 8 {
            0..=2 => sets::whole_set(&mut random, 24),
            3 => sets::whole_set(&mut random, 500),
            4 | 5 => sets::chained_set(&mut random),
            _ => sets::odd_set(&mut random),
        };
        compare_set(&mut seen, &mut random, &set, apart)?;
        let table = sets::ordered_table(&mut ordered);
        compare_table(&mut seen, &mut ordered, &table, apart)?;
        let table = sets::woven_table(&mut woven);
        compare_table(&mut seen, &mut woven, &table, apart)?;
        let set = shares_compared::draw(&mut other, k);
        shares_compared::compare(&mut seen.shares, &mut other, &set, apart.steps)?;
    }
    Ok(seen)
}

/// All sets, in parts that run side by side; each part has a seed of its own, so what is compared does not depend on
/// the machine.
fn run(sets: u64, apart: Apart) -> Result<Seen, String> {
    let parts: Vec<_> = std::thread::scope(|scope| {
        let started: Vec<_> = (0..PARTS).map(|k| scope.spawn(move || part(2004 + k, sets / PARTS, apart))).collect();
        started.into_iter().map(|one| one.join().expect("a part that ends")).collect()
    });
    let mut all = Seen::default();
    for one in parts {
        all.add(one?);
    }
    Ok(all)
}

/// The second program with the error of this name.
fn planted(name: &str) -> Apart {
    let turned = |turn| Apart { turn, ..PUBLISHED };
    let measured = |lengths| Apart { lengths, ..PUBLISHED };
    let stepped = |steps| Apart { steps, ..PUBLISHED };
    match name {
        "backwards" => turned(Turn::Backwards),
        "one-ring" => turned(Turn::OneRing),
        "never" => turned(Turn::Never),
        "ignores-length" => measured(Lengths::Ignored),
        "length-late" => measured(Lengths::LookedForLate),
        "greatest-alone" => measured(Lengths::GreatestAlone),
        "last-chosen" => stepped(Steps::LastChosen),
        "forgets-need" => stepped(Steps::ForgetsNeed),
        "negative-as-0" => stepped(Steps::NegativeAsZero),
        other => panic!("there is no error {other} to plant"),
    }
}

fn main() {
    let mut sets = 2400;
    let mut apart = PUBLISHED;
    let mut words = std::env::args().skip(1);
    while let Some(word) = words.next() {
        match word.as_str() {
            "--plant" => apart = planted(&words.next().expect("the name of an error")),
            number => sets = number.parse().expect("a number of sets"),
        }
    }
    match run(sets, apart) {
        Err(difference) => {
            println!("{difference}");
            std::process::exit(1);
        }
        Ok(seen) => {
            println!(
                "compared {} sets, {} tables ({} accepted), {} questions, {} states, {} counts",
                seen.sets, seen.tables, seen.accepted, seen.questions, seen.states, seen.counts
            );
            println!("refusals met: {:?}; accepted tables in shorter blocks: {}", seen.refusals, seen.shorter);
            println!("chain lengths met: {:?}; block lengths met: {}", seen.chains, seen.block_lengths.len());
            let shares = &seen.shares;
            println!(
                "compared {} sets for shares, {} plans, {} questions",
                shares.sets, shares.plans, shares.questions
            );
            println!("refusals met: {:?}; causes of 23, and how often: {:?}", shares.refusals, shares.causes);
            if !seen.all() {
                println!("not every refusal, chain length and cause was met, or few shorter blocks");
                std::process::exit(1);
            }
        }
    }
}
