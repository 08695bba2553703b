//! Every schedule of a small set of duties, searched tick by tick, and a schedule judged by the definition. It is
//! written apart from the proved library: it shares no code with it, and knows no blocks, rows or shares.
//!
//! A schedule says for each engine and tick which duty the engine runs, or that it is idle. It meets the duties if in
//! no tick a duty is on two engines, and every job q of a duty of `service` ticks in every `period` has at least
//! `service` ticks among the `period` ticks from `q * period` on.
//!
//! The search takes no short cut: it adds up no services, it does not keep engines busy, and it leaves no way to fill a
//! tick out because another seems as good.

use std::collections::BTreeMap;
use std::fmt;

/// A duty: service and period.
pub type Duty = (u64, u64);

/// One tick of a schedule: for each engine the duty that it runs, none where it is idle.
pub type Tick = Vec<Option<usize>>;

/// What is still owed to the job under way of each duty, in ticks.
type Owed = Vec<u64>;

/// For each state that some schedule comes to: the state before the tick, and how the tick was filled.
type Reached = BTreeMap<Owed, (Owed, usize)>;

/// Which schedules are searched. All but `Meeting` are errors that look right, planted to see that they are seen.
#[derive(Clone, Copy, PartialEq, Eq)]
pub enum Searched {
    /// Those that meet the duties.
    Meeting,
    /// A duty may have two engines in one tick.
    TwoEngines,
    /// A job's service may come after its period, if only all is served up to the common multiple.
    JobsLate,
    /// A job's service must come before the last tick of its period.
    JobsEarly,
}

/// The first tick after 0 that all periods divide, found by going on tick by tick.
pub fn common_multiple(duties: &[Duty]) -> u64 {
    (1..).find(|&tick| all_begin(duties, tick)).expect("the product of the periods is such a tick")
}

/// Whether a new job of every duty begins at the tick.
fn all_begin(duties: &[Duty], tick: u64) -> bool {
    duties.iter().all(|&(_, period)| tick % period == 0)
}

/// Every way to fill a tick: each engine is idle or runs a duty, and no duty stands twice.
fn ways(engines: usize, duties: usize, searched: Searched) -> Vec<Tick> {
    let held = || (0..duties).map(Some).chain([None]);
    let twice = |begun: &Tick, next: Option<usize>| next.is_some() && begun.contains(&next);
    let more = |begun: &Tick| -> Vec<Tick> {
        let may_stand = |&next: &Option<usize>| searched == Searched::TwoEngines || !twice(begun, next);
        held().filter(may_stand).map(|next| [begun.as_slice(), &[next]].concat()).collect()
    };
    (0..engines).fold(vec![Vec::new()], |all, _| all.iter().flat_map(more).collect())
}

/// The duties with every way to fill a tick.
struct Search<'a> {
    duties: &'a [Duty],
    ways: Vec<Tick>,
    searched: Searched,
}

impl Search<'_> {
    /// What is owed after a tick so filled. A duty that is owed nothing may run too; it stays at 0.
    fn served(&self, owed: &Owed, tick: &Tick) -> Owed {
        let mut owed = owed.clone();
        for &duty in tick.iter().flatten() {
            owed[duty] = owed[duty].saturating_sub(1);
        }
        owed
    }

    /// Whether a duty with such a period must be owed nothing when the tick begins, for a job of it has ended.
    fn is_due(&self, period: u64, tick: u64) -> bool {
        match self.searched {
            Searched::JobsLate => false,
            Searched::JobsEarly => (tick + 1) % period == 0,
            Searched::Meeting | Searched::TwoEngines => tick % period == 0,
        }
    }

    /// What is owed when a tick begins, of what was owed when the one before was over. Where something is owed to a job
    /// that has ended, there is no such state; else the next job's service is owed.
    fn begun(&self, mut owed: Owed, tick: u64) -> Option<Owed> {
        for (owed, &(service, period)) in owed.iter_mut().zip(self.duties) {
            if *owed > 0 && self.is_due(period, tick) {
                return None;
            }
            if tick % period == 0 {
                *owed += service;
            }
        }
        Some(owed)
    }

    /// All states at a tick, from all at the tick before. Where several lead to one, the first of the list is kept.
    fn reached(&self, states: &[Owed], tick: u64) -> Reached {
        let mut reached = Reached::new();
        let tried = states.iter().flat_map(|state| self.ways.iter().enumerate().map(move |(k, way)| (state, k, way)));
        for (state, k, way) in tried {
            if let Some(next) = self.begun(self.served(state, way), tick) {
                reached.entry(next).or_insert_with(|| (state.clone(), k));
            }
        }
        reached
    }

    /// The states at each tick from 1 up to the common multiple. Those that are owed the most go first, so that a
    /// schedule that is found serves late, where a fault at the end of a job shows.
    fn stretch(&self, first: &Owed) -> Vec<Reached> {
        let mut stretch = Vec::new();
        let mut states = vec![first.clone()];
        for tick in 1.. {
            let reached = self.reached(&states, tick);
            states = reached.keys().rev().cloned().collect();
            stretch.push(reached);
            if all_begin(self.duties, tick) {
                break;
            }
        }
        stretch
    }

    /// The ticks that led to a state at the end of the stretch.
    fn traced(&self, stretch: &[Reached], end: &Owed) -> Vec<Tick> {
        let mut at = end;
        let mut ticks = Vec::new();
        for reached in stretch.iter().rev() {
            let (before, way) = &reached[at];
            ticks.push(self.ways[*way].clone());
            at = before;
        }
        ticks.reverse();
        ticks
    }
}

/// The ticks up to the common multiple of a schedule that meets the duties on so many engines; none where there is no
/// such schedule.
///
/// At the common multiple every duty begins a new job, so what is owed there is what was owed at tick 0. A stretch that
/// comes so far can be repeated for ever; and a schedule that meets the duties for ever begins with such a stretch. So
/// there is a schedule exactly if some state is left there.
pub fn schedule(engines: usize, duties: &[Duty], searched: Searched) -> Option<Vec<Tick>> {
    let search = Search { duties, ways: ways(engines, duties.len(), searched), searched };
    let first: Owed = duties.iter().map(|&(service, _)| service).collect();
    let stretch = search.stretch(&first);
    stretch.last()?.contains_key(&first).then(|| search.traced(&stretch, &first))
}

/// How a schedule fails.
#[derive(Clone, Debug, PartialEq, Eq)]
pub enum Fault {
    /// A duty is on two engines in a tick.
    OnTwoEngines { duty: usize, tick: u64 },
    /// A job has other ticks than it is to have.
    Service { duty: usize, job: usize, had: u64 },
}

impl fmt::Display for Fault {
    fn fmt(&self, f: &mut fmt::Formatter<'_>) -> fmt::Result {
        match self {
            Fault::OnTwoEngines { duty, tick } => write!(f, "duty {duty} is on two engines in tick {tick}"),
            Fault::Service { duty, job, had } => write!(f, "job {job} of duty {duty} has {had} ticks"),
        }
    }
}

/// The ticks that each job of each duty has up to the common multiple, counted tick by tick.
fn counted(engines: u32, duties: &[Duty], at: impl Fn(u32, u64) -> Option<usize>) -> Result<Vec<Vec<u64>>, Fault> {
    let ticks = common_multiple(duties);
    let mut had: Vec<Vec<u64>> = duties.iter().map(|&(_, period)| vec![0; (ticks / period) as usize]).collect();
    for tick in 0..ticks {
        let run: Vec<usize> = (0..engines).filter_map(|engine| at(engine, tick)).collect();
        if let Some(&duty) = run.iter().find(|&&duty| run.iter().filter(|&&other| other == duty).count() > 1) {
            return Err(Fault::OnTwoEngines { duty, tick });
        }
        run.into_iter().for_each(|duty| had[duty][(tick / duties[duty].1) as usize] += 1);
    }
    Ok(had)
}

/// The first job of the lowest duty whose ticks are not enough for its service.
fn judged(duties: &[Duty], had: &[Vec<u64>], enough: impl Fn(u64, u64) -> bool) -> Result<(), Fault> {
    let jobs = had.iter().enumerate().flat_map(|(duty, jobs)| jobs.iter().enumerate().map(move |(q, &n)| (duty, q, n)));
    for (duty, job, had) in jobs {
        if !enough(had, duties[duty].0) {
            return Err(Fault::Service { duty, job, had });
        }
    }
    Ok(())
}

/// Whether what `at` tells of each engine and tick meets the duties up to the common multiple.
pub fn meets(engines: u32, duties: &[Duty], at: impl Fn(u32, u64) -> Option<usize>) -> Result<(), Fault> {
    judged(duties, &counted(engines, duties, at)?, |had, service| had >= service)
}

/// The same with exactly its service for every job.
pub fn meets_exactly(engines: u32, duties: &[Duty], at: impl Fn(u32, u64) -> Option<usize>) -> Result<(), Fault> {
    judged(duties, &counted(engines, duties, at)?, |had, service| had == service)
}
