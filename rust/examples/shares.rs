//! Plans of shares (algorithm SA2 of Khemka and Shyamasundar), and every refusal at its boundary; the stored output is
//! tests/expected/shares.
//!
//!     cargo run --release --example shares

use tickplume::{calls, Duty, Engine, Held, Refusal, Shares};

fn duties(pairs: &[(u32, u32)]) -> Vec<Duty> {
    pairs.iter().map(|&(service, period)| Duty { service, period }).collect()
}

/// A duty's share of a block, as a whole number and a fraction.
fn share(duty: &Duty, block_length: u32) -> String {
    let blocks = duty.period / block_length;
    match (duty.service / blocks, duty.service % blocks) {
        (whole, 0) => whole.to_string(),
        (0, part) => format!("{part}/{blocks}"),
        (whole, part) => format!("{whole} {part}/{blocks}"),
    }
}

/// What a job of the duty had, over all engines, asked tick by tick.
fn served(shares: &Shares, duty: usize, job: u64) -> Result<u32, Refusal> {
    let period = u64::from(shares.duties()[duty].period);
    let mut units = 0;
    for tick in job * period..(job + 1) * period {
        for engine in 0..shares.engines() {
            units += u32::from(shares.at(Engine(engine), tick)? == Held::Duty(duty as u32));
        }
    }
    Ok(units)
}

/// A plan block by block, then its jobs.
fn show(name: &str, engines: u32, pairs: &[(u32, u32)]) -> Result<(), Refusal> {
    let shares = Shares::build(engines, &duties(pairs))?;
    println!("{name}: engines {engines}, ticks in a block {}, blocks {}", shares.block_length(), shares.blocks());
    for (i, duty) in shares.duties().iter().enumerate() {
        let share = share(duty, shares.block_length());
        println!("  duty {i}: {} in every {}, {share} of a block", duty.service, duty.period);
    }
    for block in 0..u64::from(shares.blocks()) {
        println!("  block {block}: {:?}", shares.allotted(block));
    }
    let all = u64::from(shares.blocks()) * u64::from(shares.block_length());
    for (i, duty) in shares.duties().iter().enumerate() {
        let jobs = all / u64::from(duty.period);
        let had: Result<Vec<u32>, Refusal> = (0..jobs).map(|job| served(&shares, i, job)).collect();
        println!("  the jobs of duty {i} had {:?}", had?);
    }
    Ok(())
}

/// One line: what is said of these duties.
fn say(name: &str, engines: u32, pairs: &[(u32, u32)]) {
    match Shares::build(engines, &duties(pairs)) {
        Ok(shares) => println!("{name}: ticks in a block {}, blocks {}", shares.block_length(), shares.blocks()),
        Err(refusal) => println!("{name}: {refusal}"),
    }
}

/// Sets that SA2 has no plan for, and what is near them.
fn refused_by_the_steps() {
    say("the smallest, 1/2 1/6 1/3", 1, &[(1, 2), (1, 6), (1, 3)]);
    say("in another order, 1/2 1/3 1/6", 1, &[(1, 2), (1, 3), (1, 6)]);
    say("smallest share first, 1/6 1/3 1/2", 1, &[(1, 6), (1, 3), (1, 2)]);
    say("too full, 2/3 2/3 3/4 11/12", 3, &[(2, 3), (2, 3), (3, 4), (11, 12)]);
    say("in another order, 11/12 3/4 2/3 2/3", 3, &[(11, 12), (3, 4), (2, 3), (2, 3)]);
    say("theorems 3.3 and 3.4, 3/6 1/18 4/9", 1, &[(3, 6), (1, 18), (4, 9)]);
    say("one tick less, 2/6 1/18 4/9", 1, &[(2, 6), (1, 18), (4, 9)]);
    say("theorem 3.3 with blocks of 2, 1/2 2/10 1/10 2/10", 1, &[(1, 2), (2, 10), (1, 10), (2, 10)]);
    say("too full and short, 1/2 1/2 1/2 2/3 5/6", 3, &[(1, 2), (1, 2), (1, 2), (2, 3), (5, 6)]);
}

/// Each refusal at its boundary, and which stands before which.
fn boundaries() {
    for engines in [0, 1, 32, 33, u32::MAX] {
        say(&format!("engines {engines}"), engines, &[(1, 1)]);
    }
    for count in [0, 1, 64, 65] {
        say(&format!("duties {count}"), 32, &vec![(1, 3); count]);
    }
    for period in [0, 1, 1_000_000, 1_000_001, u32::MAX] {
        say(&format!("period {period}"), 1, &[(1, period)]);
    }
    for service in [0, 1, 7, 8] {
        say(&format!("service {service} of period 7"), 1, &[(service, 7)]);
    }
    say("5 of duty 0 and 4 of duty 1", 1, &[(3, 2), (1, 0)]);
    say("4 of duty 0 and 5 of duty 1", 1, &[(1, 0), (3, 2)]);
    for period in [4_096, 4_097] {
        say(&format!("1/1 and 1/{period}, on one engine"), 1, &[(1, 1), (1, period)]);
        say(&format!("1/1 and 1/{period}, on two engines"), 2, &[(1, 1), (1, period)]);
    }
    say("4,096 blocks of 244 ticks", 1, &[(1, 244), (1, 999_424)]);
    say("63 and 65, 4,095 blocks", 1, &[(1, 63), (1, 65)]);
    say("64 and 65, 4,160 blocks", 1, &[(1, 64), (1, 65)]);
    say("exactly full, 1/2 1/3 1/6", 1, &[(1, 2), (1, 3), (1, 6)]);
    say("a sixtieth too much, 1/2 1/3 11/60", 1, &[(1, 2), (1, 3), (11, 60)]);
    let no_plan = ([1, 1, 1], [2, 6, 3]);
    for room in [0, 17, 18] {
        let mut list = vec![7; room];
        let refusal = calls::shares(1, &no_plan.0, &no_plan.1, &mut list).unwrap_err();
        println!("no plan, and {room} entries: {refusal}, {}", if list == vec![7; room] { "kept" } else { "CHANGED" });
    }
    for engine in [0, 1, u32::MAX] {
        let held = calls::share_at(1, &no_plan.0, &no_plan.1, Engine(engine), 0).unwrap_err();
        println!("no plan, and engine {engine}: {held}");
        match calls::share_at(1, &[1], &[2], Engine(engine), u64::MAX) {
            Ok(held) => println!("1/2, engine {engine} at the last tick: {held:?}"),
            Err(refusal) => println!("1/2, engine {engine} at the last tick: {refusal}"),
        }
    }
}

fn main() -> Result<(), Refusal> {
    show("the paper's table 3", 3, &[(6, 10), (11, 20), (23, 30), (6, 20), (5, 30), (37, 60)])?;
    show("the paper's table 4", 3, &[(6, 10), (11, 20), (24, 30), (6, 20), (4, 30), (37, 60)])?;
    show("duty 0 is ahead in block 1: its need is below zero, and it gets 0", 1, &[(1, 3), (1, 2)])?;
    refused_by_the_steps();
    boundaries();
    Ok(())
}
