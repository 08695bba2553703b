//! Refusals at every boundary of the ranges, one line each; the stored output is tests/expected/boundaries.
//!
//!     cargo run --release --example boundaries

use tickplume::{calls, Engine, Refusal, MOST_BYTES};

fn told<T: std::fmt::Debug>(result: Result<T, Refusal>) -> String {
    match result {
        Ok(answer) => format!("{answer:?}"),
        Err(refusal) => format!("refused {} {}", refusal.number, refusal.place),
    }
}

/// Builds in blocks of the wanted length with a buffer of so many bytes, each 0xa5, and says what became of it. Where a
/// length was wanted, it says what the table has.
fn build_in(name: &str, engines: u32, services: &[u32], periods: &[u32], block_length: u32, room: usize) {
    let mut buffer = vec![0xa5; room];
    let result = calls::build(engines, services, periods, block_length, &mut buffer);
    let kept = match result {
        Ok(n) => buffer[n..].iter().all(|&x| x == 0xa5),
        Err(_) => buffer.iter().all(|&x| x == 0xa5),
    };
    let reading = match result {
        Ok(n) if block_length > 0 => format!(", {}", told(calls::judge(&buffer[..n]))),
        _ => String::new(),
    };
    println!("build {name}: {}{reading}{}", told(result), if kept { "" } else { ", BYTES CHANGED" });
}

/// The same in blocks of the greatest length.
fn build(name: &str, engines: u32, services: &[u32], periods: &[u32], room: usize) {
    build_in(name, engines, services, periods, 0, room);
}

fn builds() {
    for engines in [0, 1, 32, 33, u32::MAX] {
        build(&format!("{engines} engines"), engines, &[1], &[1], MOST_BYTES);
    }
    build("lists of 1 and 2", 1, &[1], &[1, 1], MOST_BYTES);
    for duties in [0usize, 1, 64, 65] {
        build(&format!("{duties} duties"), 32, &vec![1; duties], &vec![64; duties], MOST_BYTES);
    }
    for period in [0, 1, 1_000_000, 1_000_001, u32::MAX] {
        build(&format!("period {period}"), 1, &[1], &[period], MOST_BYTES);
    }
    for service in [0, 1, 7, 8] {
        build(&format!("service {service} of period 7"), 1, &[service], &[7], MOST_BYTES);
    }
    build("4 and 5 duty by duty, 5 first", 1, &[3, 1], &[2, 0], MOST_BYTES);
    build("4 and 5 duty by duty, 4 first", 1, &[1, 3], &[0, 2], MOST_BYTES);
    build("two slices not whole", 2, &[2, 1, 1], &[6, 4, 4], MOST_BYTES);
    build("exactly full", 2, &[2, 2, 2], &[3, 3, 3], MOST_BYTES);
    build("one unit too many", 2, &[2, 2, 3], &[3, 3, 3], MOST_BYTES);
    build("a buffer of the table's length", 2, &[2, 2, 2], &[3, 3, 3], 81);
    build("one byte less", 2, &[2, 2, 2], &[3, 3, 3], 80);
    build("no buffer", 1, &[1], &[1], 0);
    build("no buffer, and no engines", 0, &[1], &[1], 0);
}

/// 24: wanted lengths that divide every period, some or none; slices that are whole in blocks of one length and not of
/// another; and what is looked for before 24 and after it.
fn lengths() {
    for length in [0, 1, 2, 3, 4, 5, 6, 7, 12, u32::MAX] {
        build_in(&format!("4 in every 6 three times, length {length}"), 2, &[4; 3], &[6; 3], length, MOST_BYTES);
    }
    for length in [1, 2, 3, 6, 9, 18] {
        build_in(&format!("2 in every 6 and 3 in every 9, length {length}"), 1, &[2, 3], &[6, 9], length, MOST_BYTES);
    }
    for length in [1, 500_000, 1_000_000, 1_000_001] {
        build_in(&format!("all of 1,000,000, length {length}"), 1, &[1_000_000], &[1_000_000], length, MOST_BYTES);
    }
    build_in("1 before 24", 0, &[6], &[6], 4, 0);
    build_in("2 before 24", 1, &[6], &[6, 6], 4, 0);
    build_in("3 before 24", 1, &[], &[], 4, 0);
    build_in("4 before 24", 1, &[6, 6], &[6, 0], 4, 0);
    build_in("5 before 24", 1, &[6, 7], &[6, 6], 4, 0);
    build_in("24 before 6", 1, &[1, 6], &[4, 6], 3, 0);
    build_in("6, in blocks of 2", 1, &[1, 6], &[4, 6], 2, 0);
    build_in("24 before 7", 1, &[6, 6], &[6, 6], 4, 0);
    build_in("7, in blocks of 3", 1, &[6, 6], &[6, 6], 3, 0);
    build_in("24 before 8", 2, &[6, 6], &[6, 6], 4, 0);
    build_in("8, in blocks of 3", 2, &[6, 6], &[6, 6], 3, 0);
}

/// A table written by hand.
#[derive(Clone)]
struct Hand {
    ticks: u32,
    engines: u8,
    duties: Vec<(u32, u32)>,
    runs: Vec<(u8, u8, u32, u32)>,
    count: Option<u16>,
}

impl Hand {
    /// Two engines, blocks of 6; duty 0 has units 0 to 3 of row 0, duty 1 the last of row 0 and the first of row 1.
    fn good() -> Hand {
        Hand {
            ticks: 6,
            engines: 2,
            duties: vec![(4, 6), (8, 12), (2, 12)],
            runs: vec![(0, 0, 0, 4), (0, 1, 4, 2), (1, 1, 0, 2), (1, 2, 3, 1)],
            count: None,
        }
    }

    fn bytes(&self) -> Vec<u8> {
        let mut b = vec![1];
        b.extend_from_slice(&self.ticks.to_le_bytes());
        b.extend_from_slice(&[self.engines, self.duties.len() as u8]);
        for (c, d) in &self.duties {
            b.push(2);
            b.extend_from_slice(&c.to_le_bytes());
            b.extend_from_slice(&d.to_le_bytes());
        }
        for (r, i, u, n) in &self.runs {
            b.extend_from_slice(&[3, *r, *i]);
            b.extend_from_slice(&u.to_le_bytes());
            b.extend_from_slice(&n.to_le_bytes());
        }
        b.push(4);
        b.extend_from_slice(&self.count.unwrap_or(self.runs.len() as u16).to_le_bytes());
        b
    }
}

fn judge(name: &str, table: &[u8]) {
    println!("judge {name}: {}", told(calls::judge(table)));
}

/// A table with one thing changed.
fn changed(name: &str, change: impl Fn(&mut Hand)) {
    let mut hand = Hand::good();
    change(&mut hand);
    judge(name, &hand.bytes());
}

fn forms() {
    let good = Hand::good().bytes();
    judge("a good table", &good);
    for end in [0, 1, 6, 7, 15, 33, 34, 44, good.len() - 1] {
        judge(&format!("cut to {end} bytes"), &good[..end]);
    }
    judge("one byte more", &[&good[..], &[0]].concat());
    for (at, byte) in [(0, 2), (7, 3), (34, 2), (34, 4), (good.len() - 3, 3)] {
        let mut b = good.clone();
        b[at] = byte;
        judge(&format!("kind {byte} at byte {at}"), &b);
    }
    for ticks in [0, 1_000_000, 1_000_001] {
        changed(&format!("block length {ticks}"), |h| h.ticks = ticks);
    }
    for engines in [0, 1, 32, 33] {
        changed(&format!("{engines} engines"), |h| h.engines = engines);
    }
    changed("no duties", |h| h.duties.clear());
    changed("64 duties", |h| h.duties = vec![(1, 6); 64]);
    changed("65 duties", |h| h.duties = vec![(1, 6); 65]);
    changed("period 0", |h| h.duties[1].1 = 0);
    changed("period 1,000,001", |h| h.duties[1].1 = 1_000_001);
    changed("service 0", |h| h.duties[2].0 = 0);
    changed("service above its period", |h| h.duties[2].0 = 13);
    changed("a row that is not there", |h| h.runs[3].0 = 2);
    changed("a duty that is not there", |h| h.runs[3].1 = 3);
    changed("a run of length 0", |h| h.runs[3].3 = 0);
    changed("a run to the end of its row", |h| h.runs[3].2 = 5);
    changed("a run past the end of its row", |h| h.runs[3].2 = 6);
    changed("a run that ends past 2^32", |h| h.runs[3] = (1, 2, u32::MAX, 2));
    changed("the wrong number of runs", |h| h.count = Some(5));
    changed("the number of runs plus 65,280", |h| h.count = Some(4 + 255 * 256));
    for runs in [128usize, 129] {
        let hand = Hand {
            ticks: 300,
            engines: 1,
            duties: vec![(runs as u32, 300)],
            runs: (0..runs as u32).map(|k| (0, 0, 2 * k, 1)).collect(),
            count: None,
        };
        judge(&format!("{runs} runs"), &hand.bytes());
    }
}

/// A fault's name and a change that makes it.
type Fault = (&'static str, fn(&mut Hand));

fn faults() {
    let each: [Fault; 7] = [
        ("11", |h| h.duties[0] = (6, 9)), // 6 does not divide 9, but 6 · 6 / 9 is 4 again
        ("12", |h| h.duties[1].0 = 7),
        ("13", |h| h.runs.swap(2, 3)),
        ("14", |h| h.runs[1] = (0, 1, 3, 3)),
        ("15", |h| {
            h.runs[0].3 = 2;
            h.runs.insert(1, (0, 0, 2, 2));
        }),
        ("16", |h| h.runs[3] = (1, 1, 5, 1)),
        ("17", |h| h.runs[3].3 = 2),
    ];
    for (name, fault) in each {
        changed(&format!("fault {name}"), fault);
    }
    for (i, (one, first)) in each.iter().enumerate() {
        for (other, second) in &each[i + 1..] {
            changed(&format!("faults {one} and {other}"), |h| {
                second(h);
                first(h);
            });
        }
    }
    for (other, fault) in &each {
        changed(&format!("faults 10 and {other}"), |h| {
            fault(h);
            h.runs.last_mut().unwrap().3 = 0;
        });
    }
}

/// 11 and 12 by the block length: one that divides every period is accepted, be it the greatest or not.
fn shorter() {
    changed("every duty twice as long", |h| h.duties.iter_mut().for_each(|x| *x = (x.0 * 2, x.1 * 2)));
    changed("every period twice as long", |h| h.duties.iter_mut().for_each(|x| x.1 *= 2));
    changed("the last period five ticks longer", |h| h.duties[2].1 += 5);
    changed("the last period six ticks longer, and its service one", |h| h.duties[2] = (3, 18));
    changed("twice the greatest block length", |h| h.ticks = 12);
    let halved = |h: &mut Hand| {
        h.ticks = 3;
        h.runs = vec![(0, 0, 0, 2), (0, 1, 2, 1), (1, 1, 0, 1), (1, 2, 1, 1)];
    };
    changed("half the block, in which duty 2 has half a unit", halved);
    changed("half the block, in which it has a whole one", |h| {
        halved(h);
        h.duties[2] = (4, 12);
    });
    let hand = Hand {
        ticks: 1,
        engines: 2,
        duties: vec![(6, 6), (4, 4)],
        runs: vec![(0, 0, 0, 1), (1, 1, 0, 1)],
        count: None,
    };
    judge("blocks of one tick, periods of 6 and 4", &hand.bytes());
}

/// 14 where two runs only touch, and where runs lie in one that is not the run before them.
fn rows() {
    changed("a run that starts where its forerunner stops", |h| h.runs[1] = (0, 1, 4, 2));
    changed("a run that starts one unit sooner", |h| h.runs[1] = (0, 1, 3, 2));
    changed("two runs inside one, apart from each other", |h| {
        h.runs = vec![(0, 0, 0, 6), (0, 1, 1, 1), (0, 2, 3, 1)];
    });
    changed("the same behind two runs that only touch", |h| {
        h.runs = vec![(0, 0, 0, 1), (0, 1, 1, 1), (1, 0, 0, 6), (1, 1, 1, 1), (1, 2, 3, 1)];
    });
}

/// 16 where a duty's runs on three rows only touch, and where the last of them meets the run that starts before it, the
/// one that starts after it, or both; and 15 where the run that stops there is on another row.
fn woven() {
    let with_last = |name: &str, first, length| {
        let mut runs = vec![(0, 0, 0, 2), (0, 0, 8, 2), (1, 0, 4, 2), (2, 0, 2, 2)];
        runs.push((2, 0, first, length));
        let service = runs.iter().map(|x| x.3).sum();
        let hand = Hand { ticks: 12, engines: 3, duties: vec![(service, 12)], runs, count: None };
        judge(name, &hand.bytes());
    };
    with_last("a duty's runs end to end on three rows", 6, 2);
    with_last("the last one unit longer", 6, 3);
    with_last("the last one unit sooner", 5, 2);
    with_last("the last over its neighbours", 5, 4);
    with_last("the last behind all", 10, 2);
    changed("a run that starts where its forerunner on another row stops", |h| {
        h.duties = vec![(6, 6)];
        h.runs = vec![(0, 0, 0, 4), (1, 0, 4, 2)];
    });
}

fn asked() {
    let table = Hand::good().bytes();
    for engine in [0, 1, 2, 255, 256, u32::MAX] {
        println!("question engine {engine}: {}", told(calls::question(&table, Engine(engine), u64::MAX)));
    }
    for blocks in [0, 1, 2, 999_999_999_999, 1_000_000_000_000, 1_000_000_000_001, u64::MAX] {
        println!("count {blocks}: {}", told(calls::count(&table, blocks)));
    }
    let mut state = calls::start(&table, u64::MAX - 1).unwrap();
    println!("start at 2^64 - 2: {:?}", &state[..4]);
    println!("next: {} {:?}", told(calls::next(&table, &mut state)), &state[..4]);
    println!("next: {} {:?}", told(calls::next(&table, &mut state)), &state[..4]);
    for (entry, value) in [(1, 1), (3, 1), (32, 1), (1, 1 << 32), (0, 0)] {
        let mut other = state;
        other[entry] = value;
        println!("entry {entry} as {value}, row of engine 0: {}", told(calls::row(&table, &other, Engine(0))));
        println!("entry {entry} as {value}, row of engine 2: {}", told(calls::row(&table, &other, Engine(2))));
        let kept = other;
        println!("entry {entry} as {value}, next: {} {}", told(calls::next(&table, &mut other)), other == kept);
    }
}

fn main() {
    builds();
    lengths();
    forms();
    faults();
    shorter();
    rows();
    woven();
    asked();
}
