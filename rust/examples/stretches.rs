//! Questions over whole stretches of ticks, near tick 0 and near 2^64, of plans and of tables made by hand; the stored
//! output is tests/expected/stretches. A line has what an engine runs, tick by tick, with its row before each block.
//!
//!     cargo run --release --example stretches

use tickplume::{calls, Duty, Engine, Held, Table};

fn show(name: &str, table: &[u8]) {
    let reading = calls::judge(table).unwrap_or_else(|refusal| panic!("{name}: {refusal}"));
    let t = reading.block_length as u64;
    println!("{name}: {reading:?}");
    let last = u64::MAX / t;
    for (from, to) in [(0, 8 * t), ((last - 4) * t, u64::MAX)] {
        println!("  from tick {from}");
        for e in 0..reading.engines {
            let mut line = String::new();
            let mut tick = from;
            loop {
                let reply = calls::question(table, Engine(e), tick).unwrap();
                if tick % t == 0 {
                    line.push_str(&format!(" {}:", reply.row.0));
                }
                match reply.held {
                    Held::Idle => line.push('-'),
                    Held::Duty(i) => line.push((b'a' + i as u8) as char),
                }
                if tick == to {
                    break;
                }
                tick += 1;
            }
            println!("    engine {e}:{line}");
        }
        let state = calls::start(table, to / t).unwrap();
        println!("    rows in block {}: {:?}", to / t, &state[1..=reading.engines as usize]);
    }
    let loads: Vec<u64> = (0..6).chain([420, 1_000_000_000_000]).map(|b| calls::count(table, b).unwrap()).collect();
    println!("  loads over 0 to 5, 420 and 10^12 blocks: {loads:?}");
}

fn planned_in(name: &str, engines: u32, duties: &[(u32, u32)], block_length: u32) {
    let duties: Vec<Duty> = duties.iter().map(|&(service, period)| Duty { service, period }).collect();
    show(name, Table::build(engines, &duties, block_length).unwrap().as_bytes());
}

fn planned(name: &str, engines: u32, duties: &[(u32, u32)]) {
    planned_in(name, engines, duties, 0);
}

/// A table written by hand: block length, engines, duties, runs (row, duty, first, length).
fn by_hand(name: &str, ticks: u32, engines: u8, duties: &[(u32, u32)], runs: &[(u8, u8, u32, u32)]) {
    let mut b = vec![1];
    b.extend_from_slice(&ticks.to_le_bytes());
    b.extend_from_slice(&[engines, duties.len() as u8]);
    for (c, d) in duties {
        b.push(2);
        b.extend_from_slice(&c.to_le_bytes());
        b.extend_from_slice(&d.to_le_bytes());
    }
    for (r, i, u, n) in runs {
        b.extend_from_slice(&[3, *r, *i]);
        b.extend_from_slice(&u.to_le_bytes());
        b.extend_from_slice(&n.to_le_bytes());
    }
    b.push(4);
    b.extend_from_slice(&(runs.len() as u16).to_le_bytes());
    show(name, &b);
}

fn main() {
    planned("P1", 2, &[(2, 3), (2, 3), (2, 3)]);
    planned("P7", 2, &[(1, 3), (3, 3), (1, 3)]);
    planned("P8", 4, &[(21, 30), (8, 20), (5, 10), (8, 20), (8, 40), (35, 50), (12, 60), (63, 70)]);
    planned("P9", 3, &[(3, 4), (3, 4), (3, 4), (3, 4)]);
    by_hand(
        "one duty on three rows",
        6,
        3,
        &[(6, 6), (1, 6)],
        &[(0, 0, 0, 2), (1, 0, 2, 2), (1, 1, 5, 1), (2, 0, 4, 2)],
    );
    by_hand(
        "a chain made by hand where SA1 makes none",
        6,
        2,
        &[(3, 6), (2, 6)],
        &[(0, 1, 0, 2), (0, 0, 5, 1), (1, 0, 0, 2)],
    );
    by_hand(
        "idle rows between chains",
        4,
        6,
        &[(4, 8), (2, 4)],
        &[(0, 0, 3, 1), (1, 0, 0, 1), (4, 1, 3, 1), (5, 1, 0, 1)],
    );
    by_hand(
        "a chain whose last row ends with its first row's duty",
        4,
        2,
        &[(2, 4), (2, 4)],
        &[(0, 0, 0, 1), (0, 1, 3, 1), (1, 1, 0, 1), (1, 0, 3, 1)],
    );
    planned_in("4 in every 6 three times, in blocks of 3: as P1", 2, &[(4, 6); 3], 3);
    by_hand("blocks of a third of each period", 2, 2, &[(6, 6), (3, 6)], &[(0, 1, 0, 1), (0, 0, 1, 1), (1, 0, 0, 1)]);
}
