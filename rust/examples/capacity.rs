//! What refusal 7 means: over all sets of duties within bounds, in every order, the library's outcomes beside a search
//! over every schedule (`rust/apart/every.rs`). Where it refuses with 7 there must be no schedule; where it gives a
//! table or a plan of shares there must be one, and what that plan tells of each engine and tick must serve every job.
//! The stored output is tests/expected/capacity.
//!
//!     cargo run --release --example capacity -- [MOST_PERIOD] [--plant ERROR]
//!
//! It says how many sets have a schedule and how many have none, for each outcome, and ends with status 1 at the first
//! disagreement, or where it did not meet every outcome. With --plant there is an error that looks right, which must be
//! seen: exact-fit or one-late in how 7 is taken; two-engines, jobs-late or jobs-early in what the search lets pass.

#[path = "../apart/every.rs"]
mod every;

use every::{Duty, Searched, Tick};
use std::collections::{BTreeMap, BTreeSet};
use tickplume::{Engine, Held, Refusal, Shares, Table, MOST_ENGINES};

/// The number that stands for a table or a plan, beside those of refusals.
const GIVEN: u8 = 0;
const OVERLOAD: u8 = 7;
/// The outcomes of each builder for duties within the ranges.
const OF_TABLES: [u8; 4] = [GIVEN, OVERLOAD, 6, 24];
const OF_SHARES: [u8; 4] = [GIVEN, OVERLOAD, 22, 23];

/// Every list is tried on one engine to so many, and to one for each duty if that is more.
const ENGINES: u32 = 3;

/// How 7 is taken. All but `AsTold` are errors that look right, planted to see that they are seen.
#[derive(Clone, Copy, PartialEq, Eq)]
enum Overload {
    AsTold,
    /// Also where the duties need exactly what the engines have.
    ExactFit,
    /// Not where the duties need one tick more, up to the common multiple, than the engines have.
    OneLate,
}

/// The ticks that the duties ask for up to the common multiple, and those that one engine has.
struct Asked {
    ticks: u64,
    of_engine: u64,
}

impl Asked {
    fn of(duties: &[Duty]) -> Asked {
        let of_engine = every::common_multiple(duties);
        Asked { ticks: duties.iter().map(|&(service, period)| service * (of_engine / period)).sum(), of_engine }
    }

    /// The outcome that is taken for the one that was told.
    fn taken(&self, told: u8, engines: u32, overload: Overload) -> u8 {
        let there = u64::from(engines) * self.of_engine;
        match overload {
            Overload::ExactFit if [GIVEN, 23].contains(&told) && self.ticks == there => OVERLOAD,
            Overload::OneLate if told == OVERLOAD && self.ticks == there + 1 => GIVEN,
            _ => told,
        }
    }
}

/// What the search found, for each number of engines and set of duties. It does not depend on the duties' order.
struct Found {
    searched: Searched,
    known: BTreeMap<(u32, Vec<Duty>), bool>,
}

impl Found {
    /// Whether there is a schedule. One that is found is judged.
    fn any(&mut self, engines: u32, duties: &[Duty]) -> Result<bool, String> {
        let mut set = duties.to_vec();
        set.sort_unstable();
        if let Some(&known) = self.known.get(&(engines, set.clone())) {
            return Ok(known);
        }
        let schedule = every::schedule(engines as usize, &set, self.searched);
        if let Some(ticks) = &schedule {
            every::meets(engines, &set, |engine, tick| ticks[tick as usize][engine as usize]).map_err(|fault| {
                format!("{}: the search found a schedule in which {fault}\n{}", said(engines, &set), drawn(ticks))
            })?;
        }
        self.known.insert((engines, set), schedule.is_some());
        Ok(schedule.is_some())
    }

    /// The least engines with a schedule; there is one where every duty has an engine.
    fn least(&mut self, duties: &[Duty]) -> Result<u32, String> {
        for engines in 1..=duties.len() as u32 {
            if self.any(engines, duties)? {
                return Ok(engines);
            }
        }
        Err(format!("{}: the search finds no schedule with an engine for each duty", said(duties.len() as u32, duties)))
    }
}

/// How many sets have a schedule, and how many have none.
#[derive(Clone, Copy, Default)]
struct Tally {
    with: u64,
    without: u64,
}

impl Tally {
    fn count(&mut self, any: bool) {
        *(if any { &mut self.with } else { &mut self.without }) += 1;
    }
}

/// What was asked, found and counted.
struct Capacity {
    overload: Overload,
    found: Found,
    lists: u64,
    tables: BTreeMap<u8, Tally>,
    shares: BTreeMap<u8, Tally>,
    /// By whether the C/D add up to more than the engines.
    by_hand: BTreeMap<bool, Tally>,
    /// How often the least engines without a 7 were the least with a schedule.
    least_tables: u64,
    /// The same for shares, and how often there is no schedule on the least engines without a 7.
    least_shares: Tally,
}

/// `1 engine; 1 in 2, 1 in 3`.
fn said(engines: u32, duties: &[Duty]) -> String {
    let duties: Vec<String> = duties.iter().map(|(service, period)| format!("{service} in {period}")).collect();
    format!("{engines} engine{}; {}", if engines == 1 { "" } else { "s" }, duties.join(", "))
}

/// A line for each tick with what the engines run, `-` where one is idle.
fn drawn(ticks: &[Tick]) -> String {
    let held = |held: &Option<usize>| held.map_or_else(|| "-".to_string(), |duty| duty.to_string());
    let line = |(tick, engines): (usize, &Tick)| {
        format!("tick {tick}: {}", engines.iter().map(held).collect::<Vec<_>>().join(" "))
    };
    ticks.iter().enumerate().map(line).collect::<Vec<_>>().join("\n")
}

/// The duties as the library takes them.
fn as_duties(duties: &[Duty]) -> Vec<tickplume::Duty> {
    duties.iter().map(|&(service, period)| tickplume::Duty { service: service as u32, period: period as u32 }).collect()
}

/// The number of a refusal, or the one that stands for what is given.
fn number<T>(told: &Result<T, Refusal>) -> u8 {
    told.as_ref().map_or_else(|refusal| refusal.number, |_| GIVEN)
}

/// What an answer says that an engine runs.
fn run(told: Result<Held, Refusal>) -> Option<usize> {
    told.expect("an engine of the plan").duty().map(|duty| duty as usize)
}

/// 7 says that there is no schedule, a table or a plan that there is one; the other outcomes say neither.
fn agree(what: &str, told: u8, known: &[u8], any: bool) -> Result<(), String> {
    match (told, any) {
        (OVERLOAD, true) => Err(format!("{what}: the library refuses with 7, and the search finds a schedule")),
        (GIVEN, false) => Err(format!("{what}: the library has room for all, and the search finds no schedule")),
        _ if !known.contains(&told) => Err(format!("{what}: the library refuses with {told}")),
        _ => Ok(()),
    }
}

impl Capacity {
    fn new(overload: Overload, searched: Searched) -> Capacity {
        Capacity {
            overload,
            found: Found { searched, known: BTreeMap::new() },
            lists: 0,
            tables: BTreeMap::new(),
            shares: BTreeMap::new(),
            by_hand: BTreeMap::new(),
            least_tables: 0,
            least_shares: Tally::default(),
        }
    }

    /// The table builder, with one wanted block length.
    fn table(&mut self, engines: u32, duties: &[Duty], wanted: u32) -> Result<(), String> {
        let what = format!("{}; a table, block length {wanted}", said(engines, duties));
        let any = self.found.any(engines, duties)?;
        let told = Table::build(engines, &as_duties(duties), wanted);
        let taken = Asked::of(duties).taken(number(&told), engines, self.overload);
        agree(&what, taken, &OF_TABLES, any)?;
        self.tables.entry(taken).or_default().count(any);
        let Ok(table) = told else { return Ok(()) };
        let at = |engine, tick| run(table.at(Engine(engine), tick).map(|reply| reply.held));
        every::meets_exactly(engines, duties, at).map_err(|fault| format!("{what}: in its walk {fault}"))
    }

    /// The builder of shares.
    fn share(&mut self, engines: u32, duties: &[Duty]) -> Result<(), String> {
        let what = format!("{}; a plan of shares", said(engines, duties));
        let any = self.found.any(engines, duties)?;
        let told = Shares::build(engines, &as_duties(duties));
        let taken = Asked::of(duties).taken(number(&told), engines, self.overload);
        agree(&what, taken, &OF_SHARES, any)?;
        self.shares.entry(taken).or_default().count(any);
        let Ok(shares) = told else { return Ok(()) };
        every::meets_exactly(engines, duties, |engine, tick| run(shares.at(Engine(engine), tick)))
            .map_err(|fault| format!("{what}: in it {fault}"))
    }

    /// The sum by hand: where the C/D add up to more than the engines, there is no schedule.
    fn hand(&mut self, engines: u32, duties: &[Duty]) -> Result<(), String> {
        let asked = Asked::of(duties);
        let more = asked.ticks > u64::from(engines) * asked.of_engine;
        let any = self.found.any(engines, duties)?;
        self.by_hand.entry(more).or_default().count(any);
        if more && any {
            return Err(format!("{}: the C/D add up to more, and the search finds a schedule", said(engines, duties)));
        }
        Ok(())
    }

    /// The least number of engines that is not refused with 7, and what is told there.
    fn least_told(&self, duties: &[Duty], told: impl Fn(u32) -> u8) -> Result<(u32, u8), String> {
        let asked = Asked::of(duties);
        (1..=MOST_ENGINES as u32)
            .map(|engines| (engines, asked.taken(told(engines), engines, self.overload)))
            .find(|&(_, taken)| taken != OVERLOAD)
            .ok_or_else(|| format!("{}: all engines are refused with 7", said(MOST_ENGINES as u32, duties)))
    }

    /// Where the table builder's first outcome that is not 7 is a table, so many engines are the least with a schedule.
    fn least_table(&mut self, duties: &[Duty], wanted: u32) -> Result<(), String> {
        let told = |engines| number(&Table::build(engines, &as_duties(duties), wanted));
        let (engines, outcome) = self.least_told(duties, told)?;
        let least = self.found.least(duties)?;
        if outcome != GIVEN {
            return Ok(());
        }
        if engines != least {
            let what = format!("{}; a table, block length {wanted}", said(engines, duties));
            return Err(format!("{what}: the least engines without a 7, and the search's least is {least}"));
        }
        self.least_tables += 1;
        Ok(())
    }

    /// Below the first outcome of the builder of shares that is not 7 there is no schedule; whether there is one
    /// on so many engines is counted.
    fn least_share(&mut self, duties: &[Duty]) -> Result<(), String> {
        let told = |engines| number(&Shares::build(engines, &as_duties(duties)));
        let (engines, outcome) = self.least_told(duties, told)?;
        let least = self.found.least(duties)?;
        if engines > least {
            let what = format!("{}; a plan of shares", said(engines, duties));
            return Err(format!("{what}: the least engines without a 7, and the search's least is {least}"));
        }
        if outcome != 22 {
            self.least_shares.count(engines == least);
        }
        Ok(())
    }

    /// One list of duties, with each wanted block length up to a longest.
    fn list(&mut self, duties: &[Duty], longest: u32) -> Result<(), String> {
        self.lists += 1;
        for engines in 1..=ENGINES.max(duties.len() as u32) {
            self.hand(engines, duties)?;
            self.share(engines, duties)?;
            (0..=longest).try_for_each(|wanted| self.table(engines, duties, wanted))?;
        }
        self.least_share(duties)?;
        (0..=longest).try_for_each(|wanted| self.least_table(duties, wanted))
    }

    /// All lists within the bounds, the shorter first, and those that are refused with 22.
    fn run(&mut self, most_period: u64) -> Result<(), String> {
        for (_, duties) in bounded(most_period) {
            let longest = duties.iter().map(|&(_, period)| period as u32).max().unwrap_or(0);
            self.list(&duties, longest + 1)?;
        }
        far().iter().try_for_each(|duties| self.list(duties, 0))
    }

    /// Whether every outcome was met, and all refusals but 7 also where there is a schedule.
    fn met_all(&self) -> bool {
        let met = |tallies: &BTreeMap<u8, Tally>, number: &u8| {
            let Tally { with, without } = tallies.get(number).copied().unwrap_or_default();
            (if *number == OVERLOAD { without } else { with }) > 0
        };
        OF_TABLES.iter().all(|number| met(&self.tables, number))
            && OF_SHARES.iter().all(|number| met(&self.shares, number))
    }

    /// What was asked, within which bounds, and the counts.
    fn print(&self, most_period: u64) {
        let (two, four) = (most_period + 2, most_period - 1);
        println!("{} lists of duties, in every order: one or two duties with periods up to {two};", self.lists);
        println!("three with periods up to {most_period}, or of 1, 2, 3 and 6; four with periods up to {four};");
        println!("1 in 4097 beside a duty with a period up to 2. On one to {ENGINES} engines, four duties also on 4.");
        println!("Wanted block lengths from 0 to one above the longest period; beside 1 in 4097 0 alone.");
        println!("Order aside these are {} sets on some engines, each searched.", self.found.known.len());
        let told = |number| if number == GIVEN { "given".into() } else { format!("refused with {number}") };
        print_tallies("the table builder", &self.tables, &OF_TABLES.map(|number| (number, told(number))));
        print_tallies("the builder of shares", &self.shares, &OF_SHARES.map(|number| (number, told(number))));
        let sums = [(false, "at most the engines".into()), (true, "more".into())];
        print_tallies("the C/D add up to", &self.by_hand, &sums);
        let Tally { with, without } = self.least_shares;
        println!("least engines without a 7, beside the least with a schedule");
        println!("  the table builder, where it gives a table: the same {} times", self.least_tables);
        println!("  the builder of shares, where it does not tell 22: the same {with} times, fewer {without} times");
    }
}

/// For each outcome how many sets have a schedule, and how many have none.
fn print_tallies<K: Ord>(title: &str, tallies: &BTreeMap<K, Tally>, outcomes: &[(K, String)]) {
    println!("{title:<24}{:>12}{:>12}", "schedule", "none");
    for (outcome, name) in outcomes {
        let tally = tallies.get(outcome).copied().unwrap_or_default();
        println!("  {name:<22}{:>12}{:>12}", tally.with, tally.without);
    }
}

/// All lists of so many duties with these periods, in every order.
fn lists(length: usize, periods: &[u64]) -> Vec<Vec<Duty>> {
    let duties: Vec<Duty> =
        periods.iter().flat_map(|&period| (1..=period).map(move |service| (service, period))).collect();
    let more = |begun: &Vec<Duty>| -> Vec<Vec<Duty>> {
        duties.iter().map(|&duty| [begun.as_slice(), &[duty]].concat()).collect()
    };
    (0..length).fold(vec![Vec::new()], |all, _| all.iter().flat_map(more).collect())
}

/// The lists within the bounds, each once and with its length, the shorter first.
fn bounded(most_period: u64) -> BTreeSet<(usize, Vec<Duty>)> {
    let up_to = |most: u64| -> Vec<u64> { (1..=most).collect() };
    let kinds = [
        (1, up_to(most_period + 2)),
        (2, up_to(most_period + 2)),
        (3, up_to(most_period)),
        (3, vec![1, 2, 3, 6]),
        (4, up_to(most_period - 1)),
    ];
    let with_length = |duties: Vec<Duty>| (duties.len(), duties);
    kinds.iter().flat_map(|(length, periods)| lists(*length, periods)).map(with_length).collect()
}

/// Lists with more than 4,096 blocks up to the common multiple, which still have few states.
fn far() -> Vec<Vec<Duty>> {
    let far = (1, 4097);
    lists(1, &[1, 2]).iter().flat_map(|near| [vec![near[0], far], vec![far, near[0]]]).collect()
}

/// How 7 is taken and what is searched, with the error of this name.
fn planted(name: &str) -> (Overload, Searched) {
    match name {
        "exact-fit" => (Overload::ExactFit, Searched::Meeting),
        "one-late" => (Overload::OneLate, Searched::Meeting),
        "two-engines" => (Overload::AsTold, Searched::TwoEngines),
        "jobs-late" => (Overload::AsTold, Searched::JobsLate),
        "jobs-early" => (Overload::AsTold, Searched::JobsEarly),
        other => panic!("there is no error {other} to plant"),
    }
}

fn main() {
    let mut most_period = 5;
    let (mut overload, mut searched) = (Overload::AsTold, Searched::Meeting);
    let mut words = std::env::args().skip(1);
    while let Some(word) = words.next() {
        match word.as_str() {
            "--plant" => (overload, searched) = planted(&words.next().expect("the name of an error")),
            number => most_period = number.parse::<u64>().expect("the longest period of three duties").max(1),
        }
    }
    let mut capacity = Capacity::new(overload, searched);
    if let Err(disagreement) = capacity.run(most_period) {
        println!("{disagreement}");
        std::process::exit(1);
    }
    capacity.print(most_period);
    if !capacity.met_all() {
        println!("not every outcome was met, or one other than 7 only where there is no schedule");
        std::process::exit(1);
    }
}
