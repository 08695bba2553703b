//! The library's calls beside plain Rust that does the same work with the same checks, in one run, as a ratio.
//!
//!     cargo bench --bench beside_plain
//!
//! Each measure is the median of 41 rounds; in a round the two are timed one after the other over the same inputs. The
//! ratio is library over plain Rust, below 1 is faster, with the middle half of the rounds as its spread. The buffers
//! are written over from round to round and not cleared in between.

#[path = "../apart/lanes.rs"]
mod lanes;
#[allow(dead_code)]
#[path = "../apart/plain.rs"]
mod plain;
#[allow(dead_code)]
#[path = "../apart/random.rs"]
mod random;
#[allow(dead_code)]
#[path = "../apart/sets.rs"]
mod sets;

use std::hint::black_box;
use std::time::Instant;
use tickplume::{calls, Engine};

const ROUNDS: usize = 41;

/// Times `ours` and `theirs`, a number of calls in each round, and prints a line of the table.
fn beside(name: &str, times: usize, mut ours: impl FnMut(), mut theirs: impl FnMut()) {
    let mut a: Vec<f64> = Vec::new();
    let mut b: Vec<f64> = Vec::new();
    let mut ratios: Vec<f64> = Vec::new();
    for round in 0..ROUNDS + 3 {
        let start = Instant::now();
        for _ in 0..times {
            ours();
        }
        let x = start.elapsed().as_nanos() as f64 / times as f64;
        let start = Instant::now();
        for _ in 0..times {
            theirs();
        }
        let y = start.elapsed().as_nanos() as f64 / times as f64;
        if round >= 3 {
            a.push(x);
            b.push(y);
            ratios.push(x / y);
        }
    }
    let at = |v: &mut Vec<f64>, q: usize| {
        v.sort_by(f64::total_cmp);
        v[(v.len() - 1) * q / 4]
    };
    println!(
        "| {name} | {:.1} | {:.1} | {:.2} | {:.2} to {:.2} |",
        at(&mut a, 2),
        at(&mut b, 2),
        at(&mut ratios, 2),
        at(&mut ratios, 1),
        at(&mut ratios, 3)
    );
}

/// A set of n duties with periods that are multiples of 240, on as many engines as they need.
fn duties(n: usize) -> (u32, Vec<u32>, Vec<u32>) {
    let services: Vec<u32> = (0..n as u32).map(|i| (60 + 7 * (i % 11)) * (1 + i % 4)).collect();
    let periods: Vec<u32> = (0..n as u32).map(|i| 240 * (1 + i % 4)).collect();
    let total: u32 = (0..n as u32).map(|i| 60 + 7 * (i % 11)).sum();
    (total.div_ceil(240).clamp(1, 32), services, periods)
}

/// A full set for shares of so many blocks and duties: a block has 240 ticks, all shares but one are not whole, and the
/// last duty takes what the engines have left.
fn share_duties(blocks: u32, n: usize) -> (u32, Vec<u32>, Vec<u32>) {
    let all = 240 * blocks as u64;
    let (mut services, mut periods, mut load) = (Vec::new(), Vec::new(), 0);
    for i in 0..n as u32 - 1 {
        let factor = if i == 0 { 1 } else { (blocks >> (i % 3)).max(1) };
        let service = (60 + 7 * (i % 11)) * factor + factor / 3;
        services.push(service);
        periods.push(240 * factor);
        load += service as u64 * (blocks / factor) as u64;
    }
    let engines = load / all + 1;
    services.push((engines * all - load) as u32);
    periods.push(all as u32);
    (engines as u32, services, periods)
}

/// A way to write the allotments in plain Rust.
type Plain = fn(u32, &[u32], &[u32], &mut [u32]) -> Result<plain::Told, plain::Refused>;

/// A way to answer the question in Rust.
type PlainAt = fn(u32, &[u32], &[u32], u32, u64) -> Result<Option<u32>, plain::Refused>;

/// The quicker of the two plain ways for a set, by the least time of some calls.
fn quicker(blocks: u32, n: usize) -> (&'static str, Plain) {
    let (engines, services, periods) = share_duties(blocks, n);
    let mut out = vec![0u32; blocks as usize * n];
    let mut least = |way: Plain| {
        let timed = |_| {
            let start = Instant::now();
            let _ = black_box(way(engines, black_box(&services), black_box(&periods), &mut out));
            start.elapsed()
        };
        (0..40).map(timed).min()
    };
    if least(plain::shares) <= least(plain::shares_copied) {
        ("in two passes", plain::shares)
    } else {
        ("copied over", plain::shares_copied)
    }
}

/// The allotments of a set by the library and in Rust, which has to write the same.
fn list(name: &str, blocks: u32, n: usize, theirs: Plain) {
    let (engines, services, periods) = share_duties(blocks, n);
    let entries = blocks as usize * n;
    let (mut out, mut other) = (vec![0u32; entries], vec![0u32; entries]);
    let told = calls::shares(engines, &services, &periods, &mut out);
    assert!(told.is_ok_and(|r| r.blocks == blocks), "{told:?}");
    beside(
        name,
        (200_000 / entries).clamp(1, 5_000),
        || {
            let _ = black_box(calls::shares(black_box(engines), black_box(&services), black_box(&periods), &mut out));
        },
        || {
            let _ = black_box(theirs(black_box(engines), black_box(&services), black_box(&periods), &mut other));
        },
    );
    assert!(out == other);
}

/// The question of a plan of shares by the library and in Rust.
fn question_of_shares(name: &str, blocks: u32, n: usize, theirs: PlainAt) {
    let (engines, services, periods) = share_duties(blocks, n);
    let (mut tick, mut also) = (u64::MAX, u64::MAX);
    beside(
        name,
        (200_000 / (blocks as usize * n)).clamp(1, 5_000),
        || {
            tick = tick.wrapping_sub(977);
            let _ = black_box(calls::share_at(engines, black_box(&services), black_box(&periods), Engine(0), tick));
        },
        || {
            also = also.wrapping_sub(977);
            let _ = black_box(theirs(engines, black_box(&services), black_box(&periods), 0, also));
        },
    );
}

/// The allotments and the question of a plan of shares beside plain Rust.
fn shares(blocks: u32, n: usize) {
    let (way, plainly) = quicker(blocks, n);
    list(&format!("shares, {blocks} blocks, {n} duties (plain Rust {way})"), blocks, n, plainly);
    question_of_shares(&format!("question of shares, {blocks} blocks, {n} duties"), blocks, n, plain::share_at);
}

/// The same beside Rust that is written for the processor's lanes.
fn shares_in_lanes(blocks: u32, n: usize) {
    list(&format!("shares, {blocks} blocks, {n} duties, beside lanes of eight by hand"), blocks, n, lanes::shares);
    let name = format!("question of shares, {blocks} blocks, {n} duties, beside lanes of eight by hand");
    question_of_shares(&name, blocks, n, lanes::share_at);
}

/// A table that is accepted, of these runs in blocks of 1,000 ticks; each period is a block.
fn table(engines: u8, duties: usize, runs: &[sets::Run]) -> Vec<u8> {
    let units = |duty| runs.iter().filter(|x| x.1 as usize == duty).map(|x| x.3).sum();
    let duties: Vec<_> = (0..duties).map(|duty| (units(duty), 1000)).collect();
    let b = sets::table_bytes(1000, engines, &duties, runs);
    assert!(calls::judge(&b).is_ok(), "{:?}", calls::judge(&b));
    b
}

/// So many runs, on 8 rows with a duty each: short runs and gaps between them.
fn one_row_each(runs: usize) -> Vec<u8> {
    let rows = 8.min(runs);
    let each = (runs / rows) as u32;
    let list: Vec<_> = (0..rows as u8).flat_map(|r| (0..each).map(move |k| (r, r, 2 * k, 1))).collect();
    table(rows as u8, rows, &list)
}

/// So many runs, two of each duty, on two rows.
fn two_rows_each(runs: usize) -> Vec<u8> {
    let duties = runs as u32 / 2;
    let list: Vec<_> = (0..2).flat_map(|r| (0..duties).map(move |i| (r, i as u8, 4 * i + 2 * r as u32, 1))).collect();
    table(2, duties as usize, &list)
}

/// So many runs, all of one duty, dealt out to 32 rows by turns.
fn one_duty(runs: usize) -> Vec<u8> {
    let each = runs as u32 / 32;
    let list: Vec<_> = (0..32).flat_map(|r| (0..each).map(move |k| (r, 0, 2 * (32 * k + r as u32), 1))).collect();
    table(32, 1, &list)
}

/// The longest searches that were found: all runs of one duty, 97 on the first row, and on each other row one run, which
/// starts after these and before those of the rows above it.
fn falling() -> Vec<u8> {
    let first = (0..97).map(|k| (0, 0, 2 * k, 1));
    let list: Vec<_> = first.chain((1..32).map(|r| (r, 0, 900 - 2 * r as u32, 1))).collect();
    table(32, 1, &list)
}

/// The table that the builder writes of n duties.
fn built(n: usize) -> Vec<u8> {
    let (engines, services, periods) = duties(n);
    let mut b = vec![0; 2000];
    let written = calls::build(engines, &services, &periods, 0, &mut b).unwrap();
    b.truncate(written);
    b
}

/// The same 128 runs as on 8 rows, refused with this number at the last run: not after its forerunner, in it, joined to it,
/// or of the first duty and with a unit of its last run.
fn refused(number: u8) -> Vec<u8> {
    let mut b = one_row_each(128);
    let (before, last) = (b.len() - 3 - 22, b.len() - 3 - 11);
    match number {
        13 => b.copy_within(before + 3..before + 7, last + 3),
        14 => b[before + 7] = 3,
        15 => b[before + 7] = 2,
        _ => b[last + 2] = 0,
    }
    assert!(calls::judge(&b).is_err_and(|refusal| (refusal.number, refusal.place) == (number, 127)));
    b
}

/// As many calls in a round as pairwise plain Rust makes in 0.1 to 0.4 ms.
fn times(runs: u32) -> usize {
    let runs = runs as usize;
    100_000 / runs / runs.min(40)
}

/// The judging of a table by the library, beside plain Rust with the same quick rules and with the rules as they are
/// said, run by run.
fn judged(name: &str, table: &[u8]) {
    let runs = plain::judge(table).map_or(128, |plan| plan.runs);
    let ours = || {
        let _ = black_box(calls::judge(black_box(table)));
    };
    beside(name, times(runs), ours, || {
        let _ = black_box(plain::judge(black_box(table)));
    });
    beside(&format!("{name}, beside pairwise"), times(runs), ours, || {
        let _ = black_box(plain::judge_pairwise(black_box(table)));
    });
}

/// A way to answer the question in plain Rust.
type Ask = fn(&[u8], u32, u64) -> Result<(u32, Option<u32>), plain::Refused>;

/// The question by the library, beside the same two.
fn asked(name: &str, table: &[u8]) {
    let runs = calls::judge(table).unwrap().runs;
    for (name, theirs) in [
        (name.to_string(), plain::question as Ask),
        (format!("{name}, beside pairwise"), plain::question_pairwise as Ask),
    ] {
        let (mut tick, mut other) = (u64::MAX, u64::MAX);
        beside(
            &name,
            times(runs),
            || {
                tick = tick.wrapping_sub(977);
                let _ = black_box(calls::question(black_box(table), Engine(5), tick));
            },
            || {
                other = other.wrapping_sub(977);
                let _ = black_box(theirs(black_box(table), 5, other));
            },
        );
    }
}

/// A dispatcher's step and a count by the library and in plain Rust.
fn stepped_and_counted(runs: usize) {
    let table = one_row_each(runs);
    let mut state = calls::start(&table, 0).unwrap();
    let mut also = state;
    beside(
        &format!("dispatcher step, {runs} runs"),
        times(runs as u32),
        || {
            let _ = black_box(calls::next(black_box(&table), &mut state));
        },
        || {
            let _ = black_box(plain::next(black_box(&table), &mut also));
        },
    );
    beside(
        &format!("count, {runs} runs"),
        times(runs as u32),
        || {
            let _ = black_box(calls::count(black_box(&table), black_box(1_000_000_000_000)));
        },
        || {
            let _ = black_box(plain::count(black_box(&table), black_box(1_000_000_000_000)));
        },
    );
}

/// The build of a set by the library and in plain Rust, in blocks of the wanted length; 0 is the greatest.
fn building(name: &str, times: usize, (engines, services, periods): (u32, Vec<u32>, Vec<u32>), block_length: u32) {
    let (mut out, mut other) = (vec![0u8; 2000], vec![0u8; 2000]);
    beside(
        name,
        times,
        || {
            let (services, periods) = (black_box(&services), black_box(&periods));
            let _ = black_box(calls::build(black_box(engines), services, periods, black_box(block_length), &mut out));
        },
        || {
            let (services, periods) = (black_box(&services), black_box(&periods));
            let _ = black_box(plain::build(black_box(engines), services, periods, black_box(block_length), &mut other));
        },
    );
    assert!(out == other && (engines == 0 || out[0] == 1));
}

fn main() {
    println!("| call | library, ns | plain Rust, ns | ratio | middle half |");
    println!("|---|---|---|---|---|");
    // what a call costs by itself: no engines are refused before a duty is looked at
    let (_, services, periods) = duties(1);
    building("build, refused at once", 100_000, (0, services, periods), 0);
    for n in [1, 8, 64] {
        building(&format!("build, {n} duties"), 20_000 / n, duties(n), 0);
    }
    for n in [8, 64] {
        building(&format!("build, {n} duties, blocks of 240 wanted"), 20_000 / n, duties(n), 240);
    }
    for runs in [8, 16, 32, 64, 128] {
        judged(&format!("judge, {runs} runs"), &one_row_each(runs));
    }
    for runs in [8, 64, 128] {
        judged(&format!("judge, {runs} runs, two of each duty"), &two_rows_each(runs));
    }
    for n in [8, 64] {
        let table = built(n);
        judged(&format!("judge, {} runs as built of {n} duties", calls::judge(&table).unwrap().runs), &table);
    }
    judged("judge, 128 runs of one duty", &one_duty(128));
    judged("judge, 128 runs of one duty, falling", &falling());
    for number in 13..=16 {
        judged(&format!("judge, 128 runs, {number} at the last"), &refused(number));
    }
    for runs in [8, 64, 128] {
        asked(&format!("question, {runs} runs"), &one_row_each(runs));
    }
    asked("question, 128 runs of one duty", &one_duty(128));
    for runs in [8, 64, 128] {
        stepped_and_counted(runs);
    }
    for (blocks, n) in [(1, 64), (64, 8), (512, 64), (4_096, 8), (4_096, 64)] {
        shares(blocks, n);
    }
    shares_in_lanes(4096, 64);
}
