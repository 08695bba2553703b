//! A second planner of shares, written apart from the proved one, after the four steps of SA2 as the paper prints them.
//! It shares no code with it and takes no short cut: requirements are exact fractions, which may be below zero; the
//! common multiple is found by going on block by block; every block is laid out unit by unit; and what an engine does
//! at a tick is found by walking from block to block.

use crate::filler::{common_divisor, duties, Duty, Refused};
use std::collections::BTreeSet;

/// The most blocks up to the common multiple.
const MOST_BLOCKS: u64 = 4_096;

/// An exact number: `above / below` in lowest terms, `below` positive.
#[derive(Clone, Copy, Debug, PartialEq, Eq)]
pub struct Exact {
    above: i128,
    below: i128,
}

impl Exact {
    pub fn new(above: i128, below: i128) -> Exact {
        let (mut a, mut b) = (above.abs(), below);
        while b != 0 {
            (a, b) = (b, a % b);
        }
        Exact { above: above / a, below: below / a }
    }

    pub fn whole(number: i128) -> Exact {
        Exact { above: number, below: 1 }
    }

    pub fn plus(self, other: Exact) -> Exact {
        Exact::new(self.above * other.below + other.above * self.below, self.below * other.below)
    }

    pub fn minus(self, other: Exact) -> Exact {
        self.plus(Exact { above: -other.above, below: other.below })
    }

    /// The greatest whole number that is not above it.
    pub fn floor(self) -> i128 {
        self.above.div_euclid(self.below)
    }

    pub fn is_above(self, other: Exact) -> bool {
        self.minus(other).above > 0
    }
}

/// How the steps are taken. All but `Published` are errors that look right, planted to see that they are seen.
#[derive(Clone, Copy, PartialEq, Eq)]
pub enum Steps {
    Published,
    /// Step 2 takes the last F tasks of the list, not the first.
    LastChosen,
    /// Step 4 is left out: each block starts with the time slices again.
    ForgetsNeed,
    /// A requirement below zero is taken as none.
    NegativeAsZero,
}

/// Why a block cannot stand, in the words of the request.
#[derive(Clone, Copy, Debug, PartialEq, Eq, PartialOrd, Ord)]
pub enum Cause {
    /// Some duty gets fewer than 0 units.
    BelowZero,
    /// Some duty gets more than T units.
    AboveBlock,
    /// The block gets more than engines·T.
    TooFull,
    /// A job that ends with the block got other than its service.
    OtherService,
}

/// Why there is no plan: the refusal, and for 23 every cause that its block shows.
#[derive(Clone, Debug, PartialEq, Eq)]
pub struct NoPlan {
    pub refused: Refused,
    pub causes: BTreeSet<Cause>,
}

impl From<Refused> for NoPlan {
    fn from(refused: Refused) -> NoPlan {
        NoPlan { refused, causes: BTreeSet::new() }
    }
}

/// The duties with what is needed to take the steps.
struct Tasks {
    engines: u64,
    duties: Vec<Duty>,
    ticks: u64,
    blocks: u64,
}

/// A plan: what each duty gets in each block up to the common multiple.
#[derive(Clone, Debug)]
pub struct Plan {
    pub engines: u64,
    pub ticks: u64,
    pub allotted: Vec<Vec<u64>>,
}

impl Tasks {
    /// Refusals 1 to 5, 22 and 7.
    fn taken(engines: u64, services: &[u32], periods: &[u32]) -> Result<Tasks, Refused> {
        let duties = duties(engines, services, periods)?;
        let ticks = common_divisor(duties.iter().map(|x| x.1));
        let ends_with_all = |b: &u64| duties.iter().all(|&(_, d)| b * ticks % d == 0);
        let blocks = (1..=MOST_BLOCKS).find(ends_with_all).ok_or((22, 0))?;
        let sum = duties.iter().fold(Exact::whole(0), |s, &(c, d)| s.plus(Exact::new(c as i128, d as i128)));
        if sum.is_above(Exact::whole(engines as i128)) {
            return Err((7, 0));
        }
        Ok(Tasks { engines, duties, ticks, blocks })
    }

    /// The time slice of a task, T·C/D, which is N + F.
    fn slice(&self, i: usize) -> Exact {
        let (c, d) = self.duties[i];
        Exact::new(self.ticks as i128 * c as i128, d as i128)
    }

    /// Steps 1, 2 and 4 over one block: what each task is allotted, and the requirements of the next block.
    fn step(&self, r: &[Exact], steps: Steps) -> (Vec<i128>, Vec<Exact>) {
        let t = self.ticks as i128;
        let r: Vec<Exact> = r
            .iter()
            .map(|&x| if steps == Steps::NegativeAsZero && x.floor() < 0 { Exact::whole(0) } else { x })
            .collect();
        let n: Vec<i128> = r.iter().map(|x| x.floor()).collect();
        let f: Vec<Exact> = r.iter().map(|x| x.minus(Exact::whole(x.floor()))).collect();
        // 1. F is the number of free time units after the integer requirements
        let free = self.engines as i128 * t - n.iter().sum::<i128>();
        // 2. the first F tasks from the list of those with f > 0 and n < T, or all of them
        let mut list: Vec<usize> = (0..n.len()).filter(|&i| f[i].is_above(Exact::whole(0)) && n[i] < t).collect();
        if steps == Steps::LastChosen {
            list.reverse();
        }
        list.truncate(free.max(0) as usize);
        let chosen = |i: usize| list.contains(&i);
        let allotted = (0..n.len()).map(|i| if chosen(i) { n[i] + 1 } else { n[i] }).collect();
        // 4. what is left over, or was given in advance, is carried on
        let next = (0..n.len())
            .map(|i| match steps {
                Steps::ForgetsNeed => self.slice(i),
                _ if chosen(i) => self.slice(i).minus(Exact::whole(1).minus(f[i])),
                _ => self.slice(i).plus(f[i]),
            })
            .collect();
        (allotted, next)
    }

    /// Every cause of 23 that a block shows; `job` is what each duty's job had before it.
    fn causes(&self, block: u64, allotted: &[i128], job: &[i128]) -> BTreeSet<Cause> {
        let mut causes = BTreeSet::new();
        if allotted.iter().any(|&a| a < 0) {
            causes.insert(Cause::BelowZero);
        }
        if allotted.iter().any(|&a| a > self.ticks as i128) {
            causes.insert(Cause::AboveBlock);
        }
        if allotted.iter().sum::<i128>() > (self.engines * self.ticks) as i128 {
            causes.insert(Cause::TooFull);
        }
        let served = |i: usize| job[i] + allotted[i] == self.duties[i].0 as i128;
        if (0..allotted.len()).any(|i| self.job_ends(i, block) && !served(i)) {
            causes.insert(Cause::OtherService);
        }
        causes
    }

    /// Whether a job of the duty ends with the block.
    fn job_ends(&self, i: usize, block: u64) -> bool {
        (block + 1) * self.ticks % self.duties[i].1 == 0
    }

    /// The steps, block after block up to the common multiple: the plan, or 23 and its causes.
    fn plan(&self, steps: Steps) -> Result<Plan, NoPlan> {
        let first: Vec<Exact> = (0..self.duties.len()).map(|i| self.slice(i)).collect();
        let mut r = first.clone();
        let mut job = vec![0i128; self.duties.len()];
        let mut plan = Plan { engines: self.engines, ticks: self.ticks, allotted: Vec::new() };
        for block in 0..self.blocks {
            let (allotted, next) = self.step(&r, steps);
            let causes = self.causes(block, &allotted, &job);
            if !causes.is_empty() {
                return Err(NoPlan { refused: (23, block), causes });
            }
            for (i, a) in allotted.iter().enumerate() {
                job[i] = if self.job_ends(i, block) { 0 } else { job[i] + a };
            }
            plan.allotted.push(allotted.iter().map(|&a| a as u64).collect());
            r = next;
        }
        assert!(r == first || steps != Steps::Published, "after the common multiple it does not start afresh");
        Ok(plan)
    }
}

/// The plan of the duties, or why there is none: 1 to 5, 22, 7, 8 for a list of fewer entries than it needs, 23.
pub fn plan(engines: u64, services: &[u32], periods: &[u32], room: usize, steps: Steps) -> Result<Plan, NoPlan> {
    let tasks = Tasks::taken(engines, services, periods)?;
    let needed = tasks.blocks as usize * tasks.duties.len();
    if needed > room {
        return Err((8, needed as u64).into());
    }
    tasks.plan(steps)
}

/// A block as it lies: for each engine and unit the duty that holds it.
pub type Rows = Vec<Vec<Option<u8>>>;

/// One block laid out by SA1, unit by unit; engine i keeps row i.
pub fn lay(plan: &Plan, block: usize) -> Rows {
    let mut rows = vec![vec![None; plan.ticks as usize]; plan.engines as usize];
    let (mut row, mut unit) = (0, 0);
    for (i, &a) in plan.allotted[block].iter().enumerate() {
        for _ in 0..a {
            rows[row][unit] = Some(i as u8);
            unit += 1;
            if unit == plan.ticks as usize {
                (row, unit) = (row + 1, 0);
            }
        }
    }
    rows
}

/// A walk from block to block: which of the plan's blocks is laid out, and how it lies.
pub struct Walk<'a> {
    plan: &'a Plan,
    /// How many boundaries were crossed.
    pub crossed: u64,
    at: usize,
    pub rows: Rows,
}

impl Walk<'_> {
    pub fn new(plan: &Plan) -> Walk<'_> {
        Walk { plan, crossed: 0, at: 0, rows: lay(plan, 0) }
    }

    /// One boundary: the next block, and after the last the first again.
    pub fn step(&mut self) {
        self.crossed += 1;
        self.at = if self.at + 1 == self.plan.allotted.len() { 0 } else { self.at + 1 };
        self.rows = lay(self.plan, self.at);
    }
}
