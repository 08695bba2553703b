//! Duty sets and tables to try: valid ones, faulty ones, those at the edges of every range, in blocks as long as may be
//! and in shorter ones, and tables patched by hand.

use crate::random::Random;

/// A duty set as the builder takes it, with the block length that is wanted; plans of shares take none.
#[derive(Clone, Debug)]
pub struct Set {
    pub engines: u32,
    pub services: Vec<u32>,
    pub periods: Vec<u32>,
    pub block_length: u32,
}

/// The greatest common divisor; 0 where there is no number but 0.
fn greatest(numbers: impl IntoIterator<Item = u32>) -> u64 {
    numbers.into_iter().fold(0, |a, b| {
        let (mut a, mut b) = (a, b as u64);
        while b != 0 {
            (a, b) = (b, a % b);
        }
        a
    })
}

/// A divisor of a number, 1 where it is 0.
fn divisor(random: &mut Random, number: u64) -> u64 {
    let number = number.max(1);
    let low: Vec<u64> = (1..=number).take_while(|d| d * d <= number).filter(|d| number % d == 0).collect();
    let one = one_from(random, &low);
    if random.once_in(2) {
        one
    } else {
        number / one
    }
}

/// A length to ask for where slices are whole in blocks of `ticks`, and so in blocks of each multiple of it: mostly one
/// that gets a table.
fn whole_length(random: &mut Random, ticks: u64, periods: &[u32]) -> u32 {
    match random.below(8) {
        0 | 1 => 0,
        2..=4 => ticks as u32,
        5 => (ticks * divisor(random, greatest(periods.iter().copied()) / ticks)) as u32,
        _ => any_length(random, periods),
    }
}

/// A length to ask for, of any kind: the greatest, a divisor of it or 1; a divisor of one period, a multiple of the
/// greatest, a number above every period, and others.
fn any_length(random: &mut Random, periods: &[u32]) -> u32 {
    let common = greatest(periods.iter().copied());
    let most = periods.iter().copied().max().unwrap_or(0) as u64;
    let one = periods.get(random.below(periods.len().max(1) as u64) as usize).map_or(0, |&d| d as u64);
    let length = match random.below(10) {
        0 => 0,
        1 => 1,
        2 => common,
        3 | 4 => divisor(random, common),
        5 => divisor(random, one),
        6 => common * random.between(2, 4),
        7 => most + random.between(1, 3),
        8 => u32::MAX as u64,
        _ => random.between(1, 2 * most + 1),
    };
    length.min(u32::MAX as u64) as u32
}

/// A set whose slices are whole in blocks of some length and add up to at most, or seldom above, what the engines have.
/// That length divides every period; often so do two to six times it, so that it is not the greatest. `most_ticks`,
/// from 1 to 1,000,000, is the most that both may be.
pub fn whole_set(random: &mut Random, most_ticks: u64) -> Set {
    let blocks = if random.once_in(3) { 1 } else { random.between(2, 6).min(most_ticks) };
    let ticks = random.between(1, most_ticks / blocks);
    let engines = random.between(1, 32);
    let mut left = engines * ticks;
    let full = random.once_in(2);
    let (mut services, mut periods) = (Vec::new(), Vec::new());
    for _ in 0..random.between(1, 64) {
        if left == 0 {
            break;
        }
        let slice = if full { ticks - random.below(ticks.min(3)) } else { random.between(1, ticks) }.min(left);
        let factor = blocks * random.between(1, 6.min(1_000_000 / (ticks * blocks)));
        services.push((slice * factor) as u32);
        periods.push((ticks * factor) as u32);
        left -= slice;
    }
    let block_length = whole_length(random, ticks, &periods);
    Set { engines: engines as u32, services, periods, block_length }
}

/// A set with whole slices, changed so that it is at or past an edge of a range, or of random numbers; it keeps the
/// length that is wanted or has another.
pub fn odd_set(random: &mut Random) -> Set {
    let set = whole_set(random, 40);
    let mut set = made_odd(random, set);
    if random.once_in(2) {
        set.block_length = any_length(random, &set.periods);
    }
    set
}

/// Changes a set so that it is at or past an edge of a range, or of random numbers.
fn made_odd(random: &mut Random, mut set: Set) -> Set {
    let n = set.services.len() as u64;
    let i = random.below(n) as usize;
    match random.below(12) {
        0 => set.engines = [0, 1, 32, 33, u32::MAX][random.below(5) as usize],
        1 => set.services.push(1),
        2 => {
            set.services.clear();
            set.periods.clear();
        }
        3 => {
            let count = random.between(63, 66) as usize;
            set.services = vec![1; count];
            set.periods = vec![random.between(2, 40) as u32; count];
        }
        4 => set.periods[i] = [0, 1, 1_000_000, 1_000_001, u32::MAX][random.below(5) as usize],
        5 => set.services[i] = [0, set.periods[i], set.periods[i] + 1, u32::MAX][random.below(4) as usize],
        6 => set.periods[i] += random.between(1, 5) as u32,
        7 => set.services[i] += 1,
        8 => set.engines = 1.max(set.engines / 2),
        9 => {
            let period = [1u32, 2, 1_000_000][random.below(3) as usize];
            set.periods = vec![period; n as usize];
            set.services = vec![period.div_ceil(2); n as usize];
        }
        10 => {
            for k in 0..n as usize {
                set.services[k] = random.below(70) as u32;
                set.periods[k] = random.below(70) as u32;
            }
        }
        _ => set.services[i] = set.periods[i],
    }
    set
}

/// Long chains: every row of many is split into the next, in blocks of a whole period or of a part of it.
pub fn chained_set(random: &mut Random) -> Set {
    let engines = random.between(2, 32);
    let ticks = random.between(engines + 1, 60);
    let factor = if random.once_in(3) { 1 } else { random.between(2, 6) };
    let mut services = Vec::new();
    let mut left = engines * ticks;
    while left > 0 && services.len() < 63 {
        let slice = (ticks - 1).min(left);
        services.push((slice * factor) as u32);
        left -= slice;
    }
    let periods = vec![(ticks * factor) as u32; services.len()];
    let block_length = whole_length(random, ticks, &periods);
    Set { engines: engines as u32, services, periods, block_length }
}

/// How many blocks the sets of shares have up to the common multiple: numbers with many divisors, and the edge.
const COMMON: [u64; 16] = [1, 2, 3, 4, 6, 8, 12, 30, 60, 72, 120, 360, 840, 2_520, 4_095, 4_096];

/// A set for shares: periods that are multiples of a block length, on as many engines as the duties need, with room
/// left over or none. At most so many blocks, from 1 on.
pub fn share_set(random: &mut Random, most_ticks: u64, most_blocks: u64) -> Set {
    let choices = COMMON.iter().take_while(|&&b| b <= most_blocks).count() as u64;
    let blocks = COMMON[random.below(choices) as usize];
    let ticks = random.between(1, most_ticks.min(1_000_000 / blocks));
    let most = if random.once_in(8) { 64 } else { 9 };
    let count = random.between(1, most);
    shares_of(random, ticks, blocks, count)
}

fn one_from(random: &mut Random, numbers: &[u64]) -> u64 {
    numbers[random.below(numbers.len() as u64) as usize]
}

/// So many duties with periods that divide `ticks · blocks`: one of all blocks, one of a single block, and others. In
/// every second set one more, somewhere among them, takes all that the engines have left.
fn shares_of(random: &mut Random, ticks: u64, blocks: u64, count: u64) -> Set {
    let divisors: Vec<u64> = (1..=blocks).filter(|b| blocks % b == 0).collect();
    let all = ticks * blocks;
    let kind = random.below(3);
    let mut duties = Vec::new();
    let mut load = 0;
    for k in 0..count {
        let factor = match k {
            0 => blocks,
            1 => 1,
            _ => one_from(random, &divisors),
        };
        let period = ticks * factor;
        let service = match kind {
            0 => random.between(1, period.div_ceil(6)),
            1 => period - random.below(factor.min(period)),
            _ => random.between(1, period),
        };
        if load + service * (blocks / factor) <= 32 * all {
            load += service * (blocks / factor);
            duties.push((service, period));
        }
    }
    let turned = random.below(duties.len() as u64) as usize;
    duties.rotate_left(turned);
    let engines = load.div_ceil(all);
    let left = engines * all - load;
    if left > 0 && count < 64 && random.once_in(2) {
        duties.insert(random.between(0, duties.len() as u64) as usize, (left, all));
    }
    set_of(engines, duties)
}

fn set_of(engines: u64, duties: Vec<(u64, u64)>) -> Set {
    let (services, periods) = duties.into_iter().map(|(c, d)| (c as u32, d as u32)).unzip();
    Set { engines: engines as u32, services, periods, block_length: 0 }
}

/// A set, mostly full, in which duties that need nearly a whole row stand last: they are passed over until they need
/// more than a row has, and a unit that lay idle is then missing at the end. The others need at least a unit of each
/// block, so that none of them is ever ahead by more than it needs.
pub fn crowded_set(random: &mut Random) -> Set {
    let blocks = one_from(random, &[6, 12, 24, 60, 120, 360]);
    let ticks = one_from(random, &[2, 3, 5, 10]);
    let engines = random.between(3, 8);
    let all = ticks * blocks;
    let divisors: Vec<u64> = (2..=blocks).filter(|b| blocks % b == 0).collect();
    let mut left = engines * all;
    let mut put = |list: &mut Vec<(u64, u64)>, factor: u64, service: u64| {
        left -= service * (blocks / factor);
        list.push((service, ticks * factor));
        left
    };
    let (mut light, mut heavy) = (Vec::new(), Vec::new());
    let mut rest = engines * all;
    for _ in 0..engines - 1 {
        let factor = one_from(random, &divisors);
        rest = put(&mut heavy, factor, ticks * factor - random.between(1, (factor / 2).max(1)));
    }
    for _ in 0..random.between(1, 4) {
        let factor = one_from(random, &divisors);
        let most = (rest / (blocks / factor)).min(ticks * factor);
        if most > factor {
            rest = put(&mut light, factor, random.between(factor, most));
        }
    }
    if (blocks..=all).contains(&rest) {
        put(&mut light, blocks, rest);
    }
    light.extend(heavy);
    set_of(engines, light)
}

/// A full set of duties that need less than a unit of each block, but for one: whoever got a unit is ahead for many
/// blocks, and has none to give back where the others need all there are.
pub fn ahead_set(random: &mut Random) -> Set {
    let blocks = one_from(random, &[6, 10, 12, 30, 60, 360]);
    let ticks = random.between(1, 3);
    let engines = random.between(1, 2);
    let all = ticks * blocks;
    let divisors: Vec<u64> = (2..=blocks).filter(|b| blocks % b == 0).collect();
    let mut left = engines * all;
    let mut duties = Vec::new();
    while left > 0 && duties.len() < 40 && !(left <= all && random.once_in(5)) {
        let factor = one_from(random, &divisors);
        let service = random.between(1, factor).min(left / (blocks / factor));
        if service > 0 {
            left -= service * (blocks / factor);
            duties.push((service, ticks * factor));
        }
    }
    if (1..=all).contains(&left) {
        duties.insert(random.between(0, duties.len() as u64) as usize, (left, all));
    }
    set_of(engines, duties)
}

/// Sets that are refused with 23: the smallest at all, the smallest in which no duty is below 0 and a block is too
/// full, the smallest that meets the condition of the paper's theorem 3.3, and two with blocks of 10.
pub fn refused_sets() -> Vec<Set> {
    vec![
        set_of(1, vec![(1, 2), (1, 6), (1, 3)]),
        set_of(3, vec![(2, 3), (2, 3), (3, 4), (11, 12)]),
        set_of(1, vec![(3, 6), (1, 18), (4, 9)]),
        set_of(1, vec![(9, 20), (1, 60), (16, 30)]),
        set_of(3, vec![(28, 30), (119, 120), (1, 20), (1, 20), (117, 120)]),
    ]
}

/// Periods whose common multiple is 4,096 blocks, or a few more or less.
pub fn long_set(random: &mut Random) -> Set {
    let blocks = random.between(4_092, 4_098);
    let ticks = random.between(1, 1_000_000 / blocks);
    let most = if random.once_in(6) { 64 } else { 6 };
    let count = random.between(1, most);
    shares_of(random, ticks, blocks, count)
}

/// A set for shares, changed so that it is at or past an edge of a range, or of random numbers.
pub fn odd_share_set(random: &mut Random) -> Set {
    let set = share_set(random, 40, 120);
    made_odd(random, set)
}

/// A run as a table has it: row, duty, first unit and length.
pub type Run = (u8, u8, u32, u32);

/// A table's bytes: block length, engines, duties (service and period) and runs.
pub fn table_bytes(ticks: u32, engines: u8, duties: &[(u32, u32)], runs: &[Run]) -> Vec<u8> {
    let mut b = vec![1];
    b.extend_from_slice(&ticks.to_le_bytes());
    b.extend_from_slice(&[engines, duties.len() as u8]);
    for (service, period) in duties {
        b.push(2);
        b.extend_from_slice(&service.to_le_bytes());
        b.extend_from_slice(&period.to_le_bytes());
    }
    for &(row, duty, first, length) in runs {
        b.extend_from_slice(&[3, row, duty]);
        b.extend_from_slice(&first.to_le_bytes());
        b.extend_from_slice(&length.to_le_bytes());
    }
    b.push(4);
    b.extend_from_slice(&(runs.len() as u16).to_le_bytes());
    b
}

/// Duties with so many units of each block of `ticks`: their periods are one block or several, and in every second list
/// all of them are several, so that the block is shorter than it might be.
fn duties_with(random: &mut Random, ticks: u32, units: &[u32]) -> Vec<(u32, u32)> {
    let common = if random.once_in(2) { 1 } else { random.between(2, 5) as u32 };
    let duties = units.iter().map(|&units| {
        let blocks = common * random.between(1, 4) as u32;
        (units * blocks, ticks * blocks)
    });
    duties.collect()
}

/// A table with nothing wrong up to 13: its runs stand in order, and are drawn at random otherwise. Most start where the
/// one before stops or later, some sooner; a long one may have many behind it that lie in it.
pub fn ordered_table(random: &mut Random) -> Vec<u8> {
    let ticks = random.between(2, 60) as u32;
    let (engines, duties) = (random.between(1, 6) as u8, random.between(1, 8) as u8);
    let often = random.between(2, 40);
    let units: Vec<u32> = (0..duties).map(|_| random.between(1, ticks as u64) as u32).collect();
    let mut runs = Vec::new();
    for row in 0..engines {
        let mut first = random.below(4) as u32;
        while first < ticks && runs.len() < 128 {
            let most = if random.once_in(6) { ticks - first } else { 4.min(ticks - first) };
            let length = random.between(1, most as u64) as u32;
            runs.push((row, one_of(random, duties), first, length));
            first += if random.once_in(often) {
                random.between(1, length as u64) as u32
            } else {
                length + random.below(3) as u32
            };
        }
    }
    table_bytes(ticks, engines, &duties_with(random, ticks, &units), &runs)
}

/// A table whose duties go from row to row within a block, so that a duty has many runs on many rows, in any order of
/// their units. It is accepted; or one run is a unit longer at either end or has another duty.
pub fn woven_table(random: &mut Random) -> Vec<u8> {
    let ticks = random.between(2, 60) as u32;
    let (engines, duties) = (random.between(1, 6) as usize, random.between(1, 8) as usize);
    let mut runs = woven_runs(random, ticks, engines, duties);
    while runs.is_empty() || runs.len() > 128 {
        runs = woven_runs(random, ticks, engines, duties);
    }
    let mut units = vec![0; duties];
    for x in &runs {
        units[x.1 as usize] += x.3;
    }
    let with_units: Vec<usize> = (0..duties).filter(|&i| units[i] > 0).collect();
    for x in &mut runs {
        x.1 = with_units.iter().position(|&i| i == x.1 as usize).unwrap_or(0) as u8;
    }
    units.retain(|&n| n > 0);
    let k = random.below(runs.len() as u64) as usize;
    let (_, duty, first, length) = &mut runs[k];
    match random.below(6) {
        0 if *first + *length < ticks => *length += 1,
        1 if *first > 0 => (*first, *length) = (*first - 1, *length + 1),
        2 => *duty = one_of(random, units.len() as u8),
        _ => {}
    }
    table_bytes(ticks, engines as u8, &duties_with(random, ticks, &units), &runs)
}

/// The runs of a block in which from unit to unit two rows may change what they hold, and one may stop or take up a duty
/// that no row has.
fn woven_runs(random: &mut Random, ticks: u32, engines: usize, duties: usize) -> Vec<Run> {
    let often = random.between(1, 6);
    let mut held: Vec<Option<u8>> = (0..engines).map(|r| (r < duties).then_some(r as u8)).collect();
    let mut rows: Vec<Vec<Run>> = vec![Vec::new(); engines];
    for unit in 0..ticks {
        if random.once_in(often) {
            let (one, other) = (random.below(engines as u64) as usize, random.below(engines as u64) as usize);
            held.swap(one, other);
        }
        if random.once_in(2 * often) {
            let duty = random.below(duties as u64) as u8;
            let row = random.below(engines as u64) as usize;
            held[row] = if held.contains(&Some(duty)) { None } else { Some(duty) };
        }
        for (row, runs) in rows.iter_mut().enumerate() {
            match (held[row], runs.last_mut()) {
                (Some(duty), Some(x)) if x.1 == duty && x.2 + x.3 == unit => x.3 += 1,
                (Some(duty), _) => runs.push((row as u8, duty, unit, 1)),
                (None, _) => {}
            }
        }
    }
    rows.concat()
}

/// Changes bytes of a table: fields of a record set to other values, records swapped or doubled, cuts and additions,
/// other block lengths and periods. It takes any bytes, since each change works on what the one before has left. Where
/// there are none it leaves none.
pub fn patch(random: &mut Random, table: &[u8]) -> Vec<u8> {
    let mut b = table.to_vec();
    if b.is_empty() {
        return b;
    }
    for _ in 0..random.between(1, 3) {
        let at = random.below(b.len() as u64) as usize;
        match random.below(12) {
            0 => b[at] = random.below(256) as u8,
            1 => b[at] ^= 1 << random.below(8),
            2 => b[at] = b[at].wrapping_add(1),
            3 => b[at] = b[at].wrapping_sub(1),
            4 => b.truncate(at + 1),
            5 => b.push(random.below(256) as u8),
            6..=8 => patch_length(random, &mut b),
            _ => patch_run(random, &mut b),
        }
    }
    b
}

/// A row or duty for a run to name, out of as many as the head tells of. A patched head may tell of none: then it is 0.
fn one_of(random: &mut Random, told: u8) -> u8 {
    random.below(told.max(1) as u64) as u8
}

/// The number in the four bytes from `at` on, which are there.
fn number_at(b: &[u8], at: usize) -> u32 {
    u32::from_le_bytes([b[at], b[at + 1], b[at + 2], b[at + 3]])
}

/// Multiplies the number in the four bytes from `at` on, which are there; past 2^32 - 1 it is that.
fn multiply_at(b: &mut [u8], at: usize, factor: u32) {
    let product = number_at(b, at).saturating_mul(factor);
    b[at..at + 4].copy_from_slice(&product.to_le_bytes());
}

/// Changes the block length to a divisor or a multiple; or all duties, or one, so that a period has more blocks and the
/// units of a block stay; or one period to any length. A table whose duties cannot be found stays.
fn patch_length(random: &mut Random, b: &mut [u8]) {
    let Some(duties) = duty_places(b) else { return };
    let ticks = number_at(b, 1);
    let Some(&one) = duties.get(random.below(duties.len().max(1) as u64) as usize) else { return };
    let factor = random.between(2, 5) as u32;
    let mut put = |at: usize, number: u32| b[at..at + 4].copy_from_slice(&number.to_le_bytes());
    match random.below(8) {
        0 => put(1, divisor(random, ticks as u64) as u32),
        1 => multiply_at(b, 1, factor),
        2 => put(one + 5, random.between(1, 4 * ticks as u64 + 1) as u32),
        3 => [one + 1, one + 5].into_iter().for_each(|at| multiply_at(b, at, factor)),
        _ => duties.iter().flat_map(|at| [at + 1, at + 5]).for_each(|at| multiply_at(b, at, factor)),
    }
}

/// Where the duty records of a table stand, if it has as many as its head tells of.
fn duty_places(b: &[u8]) -> Option<Vec<usize>> {
    let places: Vec<usize> = (0..*b.get(6)? as usize).map(|i| 7 + 9 * i).collect();
    places.iter().all(|&at| b.len() >= at + 9 && b[at] == 2).then_some(places)
}

/// Whether an accepted table has blocks that are shorter than its periods' greatest common divisor.
pub fn is_shorter(b: &[u8]) -> bool {
    let periods = duty_places(b).unwrap_or_default().into_iter().map(|at| number_at(b, at + 5));
    (number_at(b, 1) as u64) < greatest(periods)
}

/// Changes one run, or two, of a table whose records can still be found; the head may say anything.
pub fn patch_run(random: &mut Random, b: &mut Vec<u8>) {
    let Some(runs) = run_places(b) else { return };
    if runs.is_empty() {
        return;
    }
    let k = random.below(runs.len() as u64) as usize;
    let at = runs[k];
    match random.below(8) {
        0 => b[at + 1] = one_of(random, b[5]),
        1 => b[at + 2] = one_of(random, b[6]),
        2 => b[at + 3] = b[at + 3].wrapping_add(1),
        3 => b[at + 7] = b[at + 7].wrapping_sub(1),
        4 if k > 0 => {
            let (one, other) = (runs[k - 1], at);
            for j in 0..11 {
                b.swap(one + j, other + j);
            }
        }
        5 if b[at + 7] > 1 => {
            // one run becomes two, the second on another row or where the first stops
            let mut second = b[at..at + 11].to_vec();
            let cut = random.between(1, b[at + 7] as u64 - 1) as u8;
            second[7] = b[at + 7] - cut;
            second[3] = second[3].wrapping_add(cut);
            b[at + 7] = cut;
            if random.once_in(2) {
                second[1] = one_of(random, b[5]);
            }
            b.splice(at + 11..at + 11, second);
            let end = b.len() - 2;
            b[end] = b[end].wrapping_add(1);
        }
        6 => {
            // a run doubled, or many times
            let copies = if random.once_in(3) { 129 } else { 1 };
            let one = b[at..at + 11].to_vec();
            for _ in 0..copies {
                b.splice(at..at, one.clone());
            }
            let total = runs.len() + copies;
            let end = b.len() - 2;
            b[end..].copy_from_slice(&(total as u16).to_le_bytes());
        }
        _ => {
            b.drain(at..at + 11);
            let end = b.len() - 2;
            b[end] = b[end].wrapping_sub(1);
        }
    }
}

/// Where the run records of a table stand, if it has the form of one.
pub fn run_places(b: &[u8]) -> Option<Vec<usize>> {
    let first = 7 + 9 * *b.get(6)? as usize;
    let mut out = Vec::new();
    let mut at = first;
    while b.get(at) == Some(&3) && b.len() >= at + 14 {
        out.push(at);
        at += 11;
    }
    (b.get(at) == Some(&4)).then_some(out)
}
