//! What helps where SA2 refuses with 23: random sets that it refuses, tried again with the duties in another order, or
//! with one engine more. The stored output is tests/expected/orders.
//!
//!     cargo run --release --example orders

#[allow(dead_code)]
#[path = "../apart/random.rs"]
mod random;

use random::Random;
use tickplume::{calls, Duty, MOST_ALLOTMENTS};

/// The refusal's number, or 0 where there is a plan.
fn number(engines: u32, duties: &[Duty], list: &mut [u32]) -> u8 {
    let (services, periods) = calls::lists(duties);
    calls::shares(engines, &services, &periods, list).map_or_else(|refusal| refusal.number, |_| 0)
}

/// The duties in the order of a key.
fn ordered<K: Ord>(duties: &[Duty], key: impl Fn(&Duty) -> K) -> Vec<Duty> {
    let mut duties = duties.to_vec();
    duties.sort_by_key(key);
    duties
}

/// A duty's share of its engine, C/D, as a whole number to sort by: periods are at most 120.
fn share(duty: &Duty) -> u64 {
    u64::from(duty.service) * 1_000_000_000 / u64::from(duty.period)
}

/// Two to nine duties on one to four engines, periods up to 120.
fn drawn(random: &mut Random) -> (u32, Vec<Duty>) {
    let ticks = random.between(1, 10);
    let duties = (0..random.between(2, 9)).map(|_| {
        let period = ticks * random.between(1, 12);
        Duty { service: random.between(1, period) as u32, period: period as u32 }
    });
    let duties = duties.collect();
    (random.between(1, 4) as u32, duties)
}

fn main() {
    let mut random = Random::new(1);
    let mut list = vec![0; MOST_ALLOTMENTS];
    let (mut planned, mut refused) = (0, 0);
    let mut helped = [0; 4];
    while refused < 2_000 {
        let (engines, duties) = drawn(&mut random);
        match number(engines, &duties, &mut list) {
            0 => planned += 1,
            23 => {
                refused += 1;
                let again = [
                    number(engines, &ordered(&duties, share), &mut list),
                    number(engines, &ordered(&duties, |x| std::cmp::Reverse(share(x))), &mut list),
                    number(engines, &ordered(&duties, |x| x.period), &mut list),
                    number(engines + 1, &duties, &mut list),
                ];
                for (count, number) in helped.iter_mut().zip(again) {
                    *count += u32::from(number == 0);
                }
            }
            _ => {}
        }
    }
    println!("{planned} random sets planned, {refused} refused with 23; of these are planned");
    let names = ["smallest share first", "largest share first", "shortest period first", "one engine more"];
    for (name, count) in names.iter().zip(helped) {
        println!("  {name}: {count}");
    }
}
