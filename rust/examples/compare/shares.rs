//! Plans of shares compared: the library's allotments and answers beside those of the planner written apart.

use crate::random::Random;
use crate::sets::{self, Set};
use crate::shares::{plan, Cause, NoPlan, Plan, Steps, Walk};
use crate::{as_pair, differ};
use std::collections::{BTreeMap, BTreeSet};
use tickplume::{calls, Engine, Held};

const MARK: u32 = 0xa5a5_a5a5;

#[derive(Default)]
pub struct Seen {
    pub sets: u64,
    pub plans: u64,
    pub questions: u64,
    pub refusals: BTreeSet<u8>,
    pub causes: BTreeMap<BTreeSet<Cause>, u64>,
    pub blocks: BTreeSet<usize>,
}

impl Seen {
    pub fn add(&mut self, other: Seen) {
        self.sets += other.sets;
        self.plans += other.plans;
        self.questions += other.questions;
        self.refusals.extend(other.refusals);
        self.blocks.extend(other.blocks);
        for (causes, times) in other.causes {
            *self.causes.entry(causes).or_default() += times;
        }
    }

    /// Whether every refusal was met, and each cause of 23 that comes up by itself.
    pub fn all(&self) -> bool {
        let alone = |cause: Cause| self.causes.contains_key(&BTreeSet::from([cause]));
        [1, 2, 3, 4, 5, 7, 8, 18, 22, 23].iter().all(|n| self.refusals.contains(n))
            && alone(Cause::BelowZero)
            && alone(Cause::TooFull)
            && self.blocks.contains(&4_096)
    }
}

/// The k-th set to compare.
pub fn draw(random: &mut Random, k: u64) -> Set {
    match k % 24 {
        0..=4 => sets::share_set(random, 6, 12),
        5..=8 => sets::share_set(random, 40, 120),
        9 => sets::share_set(random, 20_000, 6),
        10 => sets::long_set(random),
        11..=14 => sets::ahead_set(random),
        15..=18 => sets::crowded_set(random),
        _ => sets::odd_share_set(random),
    }
}

/// One duty set: lent lists of every kind of length, then questions.
pub fn compare(seen: &mut Seen, random: &mut Random, set: &Set, steps: Steps) -> Result<(), String> {
    seen.sets += 1;
    let theirs = |room| plan(set.engines as u64, &set.services, &set.periods, room, steps);
    let (short, long) = (theirs(0).map(|_| ()), theirs(usize::MAX));
    let needed = match &short {
        Err(NoPlan { refused: (8, needed), .. }) => *needed as usize,
        _ => 2,
    };
    for room in [0, needed - 1, needed, needed + 1 + random.below(70) as usize] {
        let expected =
            if room < needed { short.clone().map(|_| None) } else { long.as_ref().map(Some).map_err(Clone::clone) };
        compare_list(seen, set, room, expected)?;
    }
    match long {
        Ok(plan) => {
            seen.plans += 1;
            seen.blocks.insert(plan.allotted.len());
            compare_questions(seen, random, set, &plan)
        }
        Err(no) => {
            if no.refused.0 == 23 {
                *seen.causes.entry(no.causes.clone()).or_default() += 1;
            }
            for engine in [0, set.engines, random.next() as u32] {
                compare_answer(seen, set, engine, random.next(), Err(no.refused))?;
            }
            Ok(())
        }
    }
}

/// The allotments in a list of so many entries; where they are refused, and past the last, the entries stay.
fn compare_list(
    seen: &mut Seen,
    set: &Set,
    room: usize,
    expected: Result<Option<&Plan>, NoPlan>,
) -> Result<(), String> {
    let mut list = vec![MARK; room];
    let ours = calls::shares(set.engines, &set.services, &set.periods, &mut list).map_err(as_pair);
    let mut whole = vec![MARK; room];
    let told = match expected {
        Ok(Some(plan)) => {
            let entries: Vec<u32> = plan.allotted.iter().flatten().map(|&units| units as u32).collect();
            whole[..entries.len()].copy_from_slice(&entries);
            Ok((entries.len(), plan.ticks, plan.allotted.len()))
        }
        Ok(None) => return differ("shares", ours, "a plan in a list that is too short", set),
        Err(no) => {
            seen.refusals.insert(no.refused.0);
            Err(no.refused)
        }
    };
    if ours.map(|r| (r.entries, r.block_length as u64, r.blocks as usize)) != told {
        return differ("shares", ours, told, (room, set));
    }
    if list != whole {
        return differ("allotments", &list[..room.min(256)], &whole[..room.min(256)], (room, set));
    }
    Ok(())
}

/// One question and what the second program says.
fn compare_answer(
    seen: &mut Seen,
    set: &Set,
    engine: u32,
    tick: u64,
    theirs: Result<Option<u8>, (u8, u64)>,
) -> Result<(), String> {
    seen.questions += 1;
    let ours = calls::share_at(set.engines, &set.services, &set.periods, Engine(engine), tick).map_err(as_pair);
    let theirs = theirs.map(|duty| duty.map_or(Held::Idle, |i| Held::Duty(i as u32)));
    if let Err(refused) = theirs {
        seen.refusals.insert(refused.0);
    }
    if ours != theirs {
        return differ("share_at", ours, theirs, (engine, tick, set));
    }
    Ok(())
}

/// Questions of a plan, every engine in turn, along one walk; and engines that are not there.
fn compare_questions(seen: &mut Seen, random: &mut Random, set: &Set, plan: &Plan) -> Result<(), String> {
    let mut walk = Walk::new(plan);
    let mut engine = 0;
    for (walked, tick) in ticks(random, plan, set.services.len()) {
        while (walk.crossed + 1) * plan.ticks <= walked {
            walk.step();
        }
        let unit = (walked - walk.crossed * plan.ticks) as usize;
        compare_answer(seen, set, engine, tick, Ok(walk.rows[engine as usize][unit]))?;
        engine = (engine + 1) % set.engines;
    }
    for engine in [set.engines, set.engines + 1 + random.below(40) as u32, u32::MAX] {
        compare_answer(seen, set, engine, random.next(), Err((18, 0)))?;
    }
    Ok(())
}

/// The ticks that are asked, and where on a walk from tick 0 each is found, in the walk's order: near 0, at the
/// boundaries of blocks, past the common multiple, and, with whole rounds of the plan taken off, near 2^64 and
/// anywhere.
fn ticks(random: &mut Random, plan: &Plan, duties: usize) -> Vec<(u64, u64)> {
    let blocks = plan.allotted.len() as u64;
    let round = blocks * plan.ticks;
    // the library goes through all blocks for each question, so a long plan is asked less often
    let times = (20_000 / (blocks * duties as u64)).clamp(6, 100);
    let rounds = if round * plan.engines > 100_000 { 1 } else { 2 };
    let mut out: Vec<u64> = vec![0, 1, plan.ticks - 1, plan.ticks, round - 1, round, round + 1];
    for _ in 0..times {
        let boundary = random.between(1, rounds * blocks + 1) * plan.ticks;
        out.extend([boundary - 1, boundary, boundary + random.below(plan.ticks)]);
    }
    let mut out: Vec<(u64, u64)> = out.into_iter().map(|tick| (tick, tick)).collect();
    for _ in 0..times {
        let far = [u64::MAX - random.below(3 * plan.ticks), random.next()];
        out.extend(far.map(|tick| (tick % round, tick)));
    }
    out.sort();
    out
}
