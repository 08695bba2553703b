//! The same work in plain Rust, as one would write it by hand: an independent implementation for the differential
//! tests, and the measure for the benchmarks. It has the same checks and closed forms where the walk would be too long.

/// A refusal: number and place.
pub type Refused = (u8, u64);

#[derive(Clone, Copy, Default)]
struct Run {
    row: u32,
    duty: u32,
    first: u32,
    length: u32,
}

impl Run {
    fn stop(&self) -> u32 {
        self.first + self.length
    }

    fn meets(&self, other: &Run) -> bool {
        self.first < other.stop() && other.first < self.stop()
    }
}

fn gcd(mut a: u32, mut b: u32) -> u32 {
    while b != 0 {
        (a, b) = (b, a % b);
    }
    a
}

/// Refusals 1 to 5.
fn in_range(engines: u32, services: &[u32], periods: &[u32]) -> Result<(), Refused> {
    if !(1..=32).contains(&engines) {
        return Err((1, 0));
    }
    if services.len() != periods.len() {
        return Err((2, 0));
    }
    if !(1..=64).contains(&services.len()) {
        return Err((3, 0));
    }
    for (i, (&c, &d)) in services.iter().zip(periods).enumerate() {
        if !(1..=1_000_000).contains(&d) {
            return Err((4, i as u64));
        }
        if !(1..=d).contains(&c) {
            return Err((5, i as u64));
        }
    }
    Ok(())
}

/// The block length that is wanted, 0 for the greatest, or refusal 24.
fn block_length(periods: &[u32], wanted: u32) -> Result<u32, Refused> {
    if wanted == 0 {
        return Ok(periods.iter().fold(0, |g, &d| gcd(g, d)));
    }
    if periods.iter().any(|d| d % wanted != 0) {
        return Err((24, 0));
    }
    Ok(wanted)
}

/// Builds a table, as the library's builder does.
pub fn build(engines: u32, services: &[u32], periods: &[u32], wanted: u32, out: &mut [u8]) -> Result<usize, Refused> {
    in_range(engines, services, periods)?;
    let t = block_length(periods, wanted)?;
    for (i, (&c, &d)) in services.iter().zip(periods).enumerate() {
        if t as u64 * c as u64 % d as u64 != 0 {
            return Err((6, i as u64));
        }
    }
    let slice = |i: usize| (t as u64 * services[i] as u64 / periods[i] as u64) as u32;
    let total: u64 = (0..services.len()).map(|i| slice(i) as u64).sum();
    if total > engines as u64 * t as u64 {
        return Err((7, 0));
    }
    let mut runs = 0;
    let mut unit = 0;
    for i in 0..services.len() {
        let end = unit + slice(i);
        runs += if end > t { 2 } else { 1 };
        unit = if end >= t { end - t } else { end };
    }
    let needed = 7 + 9 * services.len() + 11 * runs + 3;
    if out.len() < needed {
        return Err((8, needed as u64));
    }
    out[0] = 1;
    out[1..5].copy_from_slice(&t.to_le_bytes());
    out[5] = engines as u8;
    out[6] = services.len() as u8;
    let mut at = 7;
    for (&c, &d) in services.iter().zip(periods) {
        out[at] = 2;
        out[at + 1..at + 5].copy_from_slice(&c.to_le_bytes());
        out[at + 5..at + 9].copy_from_slice(&d.to_le_bytes());
        at += 9;
    }
    let (mut row, mut unit) = (0u32, 0u32);
    let mut put = |at: &mut usize, row: u32, duty: usize, first: u32, length: u32| {
        out[*at] = 3;
        out[*at + 1] = row as u8;
        out[*at + 2] = duty as u8;
        out[*at + 3..*at + 7].copy_from_slice(&first.to_le_bytes());
        out[*at + 7..*at + 11].copy_from_slice(&length.to_le_bytes());
        *at += 11;
    };
    for i in 0..services.len() {
        let n = slice(i);
        if unit + n <= t {
            put(&mut at, row, i, unit, n);
        } else {
            put(&mut at, row, i, unit, t - unit);
            put(&mut at, row + 1, i, 0, unit + n - t);
        }
        if unit + n >= t {
            row += 1;
            unit = unit + n - t;
        } else {
            unit += n;
        }
    }
    out[at] = 4;
    out[at + 1..at + 3].copy_from_slice(&(runs as u16).to_le_bytes());
    Ok(needed)
}

/// A table that was read and judged.
pub struct Plan {
    pub block_length: u32,
    pub engines: u32,
    pub duties: u32,
    pub runs: u32,
    list: [Run; 128],
}

fn word(b: &[u8]) -> u32 {
    u32::from_le_bytes([b[0], b[1], b[2], b[3]])
}

/// Reads and judges any bytes. Of 14 and 15 each run is held against the one before it, of 16 against two of its duty's
/// earlier ones, which are kept sorted.
pub fn judge(b: &[u8]) -> Result<Plan, Refused> {
    judge_by(b, quick_rules)
}

/// The same with 14 to 16 as they are said: each run is held against every earlier one.
pub fn judge_pairwise(b: &[u8]) -> Result<Plan, Refused> {
    judge_by(b, pairwise_rules)
}

/// 14 to 16, where 13 holds: of each the lowest run that is so to an earlier one.
#[inline(always)]
fn pairwise_rules(runs: &[Run]) -> Result<(), Refused> {
    for (k, y) in runs.iter().enumerate() {
        if runs[..k].iter().any(|x| x.row == y.row && x.meets(y)) {
            return Err((14, k as u64));
        }
    }
    for (k, y) in runs.iter().enumerate() {
        if runs[..k].iter().any(|x| x.row == y.row && x.duty == y.duty && x.stop() == y.first) {
            return Err((15, k as u64));
        }
    }
    for (k, y) in runs.iter().enumerate() {
        if runs[..k].iter().any(|x| x.row != y.row && x.duty == y.duty && x.meets(y)) {
            return Err((16, k as u64));
        }
    }
    Ok(())
}

/// The same in nearly linear time. In order, and apart on a row, the run before is the only one that can overlap or be
/// joined. A duty's earlier runs share no unit, so in a list sorted by first unit only the two between which a run
/// falls can meet it. At k stands what follows run k in its list, behind the runs the first of each duty's list: 0 for
/// none, else the run's number and 1. A search begins at the duty's last run where it can.
#[inline(always)]
fn quick_rules(runs: &[Run]) -> Result<(), Refused> {
    for k in 1..runs.len() {
        if runs[k - 1].row == runs[k].row && runs[k].first < runs[k - 1].stop() {
            return Err((14, k as u64));
        }
    }
    for k in 1..runs.len() {
        let (x, y) = (&runs[k - 1], &runs[k]);
        if x.row == y.row && x.duty == y.duty && x.stop() == y.first {
            return Err((15, k as u64));
        }
    }
    let (mut after, mut last) = ([0u16; 128 + 64], [0u16; 64]);
    for (k, y) in runs.iter().enumerate() {
        let starts_before = |run: u16, unit: u32| run != 0 && runs[run as usize - 1].first < unit;
        let duty = y.duty as usize;
        let mut at = runs.len() + duty;
        if starts_before(last[duty], y.first) {
            at = last[duty] as usize - 1;
        }
        while starts_before(after[at], y.first) {
            at = after[at] as usize - 1;
        }
        if at < runs.len() && y.first < runs[at].stop() || starts_before(after[at], y.stop()) {
            return Err((16, k as u64));
        }
        after[k] = after[at];
        after[at] = k as u16 + 1;
        last[duty] = k as u16 + 1;
    }
    Ok(())
}

/// Reads and judges any bytes, rule by rule, with a way to look for 14 to 16.
#[inline(always)]
fn judge_by(b: &[u8], rules: impl Fn(&[Run]) -> Result<(), Refused>) -> Result<Plan, Refused> {
    let form = |at: usize| Err((10, at as u64));
    if b.len() < 7 || b[0] != 1 {
        return form(0);
    }
    let (t, m, n) = (word(&b[1..5]), b[5] as u32, b[6] as u32);
    if !(1..=1_000_000).contains(&t) || !(1..=32).contains(&m) || !(1..=64).contains(&n) {
        return form(0);
    }
    let mut duties = [(0u32, 0u32); 64];
    let mut at = 7;
    for duty in &mut duties[..n as usize] {
        if b.len() < at + 9 || b[at] != 2 {
            return form(at);
        }
        let (c, d) = (word(&b[at + 1..at + 5]), word(&b[at + 5..at + 9]));
        if !(1..=1_000_000).contains(&d) || !(1..=d).contains(&c) {
            return form(at);
        }
        *duty = (c, d);
        at += 9;
    }
    let mut list = [Run::default(); 128];
    let mut k = 0;
    while k < 128 && b.len() >= at + 11 && b[at] == 3 {
        let run = Run {
            row: b[at + 1] as u32,
            duty: b[at + 2] as u32,
            first: word(&b[at + 3..at + 7]),
            length: word(&b[at + 7..at + 11]),
        };
        if run.row >= m || run.duty >= n || run.length < 1 || run.first as u64 + run.length as u64 > t as u64 {
            return form(at);
        }
        list[k] = run;
        k += 1;
        at += 11;
    }
    if b.len() < at + 3 || b[at] != 4 || b[at + 1] as usize + 256 * b[at + 2] as usize != k {
        return form(at);
    }
    if b.len() > at + 3 {
        return form(at + 3);
    }
    let runs = &list[..k];
    if duties[..n as usize].iter().any(|x| x.1 % t != 0) {
        return Err((11, 0));
    }
    for (i, &(c, d)) in duties[..n as usize].iter().enumerate() {
        if t as u64 * c as u64 % d as u64 != 0 {
            return Err((12, i as u64));
        }
    }
    for k in 1..runs.len() {
        if (runs[k - 1].row, runs[k - 1].first) >= (runs[k].row, runs[k].first) {
            return Err((13, k as u64));
        }
    }
    rules(runs)?;
    let mut units = [0u64; 64];
    for x in runs {
        units[x.duty as usize] += x.length as u64;
    }
    for (i, &(c, d)) in duties[..n as usize].iter().enumerate() {
        if units[i] != t as u64 * c as u64 / d as u64 {
            return Err((17, i as u64));
        }
    }
    Ok(Plan { block_length: t, engines: m, duties: n, runs: k as u32, list })
}

impl Plan {
    /// The duty at unit 0 and at the last unit of each row.
    fn edges(&self) -> ([Option<u32>; 33], [Option<u32>; 33]) {
        let (mut starts, mut ends) = ([None; 33], [None; 33]);
        for x in &self.list[..self.runs as usize] {
            if x.first == 0 {
                starts[x.row as usize] = Some(x.duty);
            }
            if x.stop() == self.block_length {
                ends[x.row as usize] = Some(x.duty);
            }
        }
        (starts, ends)
    }

    /// The row that an engine has in a block.
    fn row(&self, starts: &[Option<u32>; 33], ends: &[Option<u32>; 33], engine: u32, block: u64) -> u32 {
        let linked = |r: u32| ends[r as usize].is_some() && ends[r as usize] == starts[r as usize + 1];
        let (mut first, mut last) = (engine, engine);
        while first > 0 && linked(first - 1) {
            first -= 1;
        }
        while linked(last) {
            last += 1;
        }
        let length = (last + 1 - first) as u64;
        first + (((engine - first) as u64 + block % length) % length) as u32
    }
}

/// The direct question: row and duty.
pub fn question(b: &[u8], engine: u32, tick: u64) -> Result<(u32, Option<u32>), Refused> {
    reply(judge(b)?, engine, tick)
}

/// The same with the rules as they are said.
pub fn question_pairwise(b: &[u8], engine: u32, tick: u64) -> Result<(u32, Option<u32>), Refused> {
    reply(judge_pairwise(b)?, engine, tick)
}

#[inline(always)]
fn reply(plan: Plan, engine: u32, tick: u64) -> Result<(u32, Option<u32>), Refused> {
    if engine >= plan.engines {
        return Err((18, 0));
    }
    let (starts, ends) = plan.edges();
    let t = plan.block_length as u64;
    let row = plan.row(&starts, &ends, engine, tick / t);
    let unit = (tick % t) as u32;
    let held = plan.list[..plan.runs as usize].iter().find(|x| x.row == row && x.first <= unit && unit < x.stop());
    Ok((row, held.map(|x| x.duty)))
}

fn state_at(plan: &Plan, block: u64) -> [u64; 33] {
    let (starts, ends) = plan.edges();
    let mut state = [0; 33];
    state[0] = block;
    for e in 0..plan.engines {
        state[e as usize + 1] = plan.row(&starts, &ends, e, block) as u64;
    }
    state
}

/// The dispatcher's state for a block.
pub fn start(b: &[u8], block: u64) -> Result<[u64; 33], Refused> {
    Ok(state_at(&judge(b)?, block))
}

/// The row of an engine in a state.
pub fn row(b: &[u8], state: &[u64; 33], engine: u32) -> Result<u32, Refused> {
    let plan = judge(b)?;
    if engine >= plan.engines {
        return Err((18, 0));
    }
    if *state != state_at(&plan, state[0]) {
        return Err((20, 0));
    }
    Ok(state[engine as usize + 1] as u32)
}

/// The state of the next block.
pub fn next(b: &[u8], state: &mut [u64; 33]) -> Result<(), Refused> {
    let plan = judge(b)?;
    if *state != state_at(&plan, state[0]) {
        return Err((20, 0));
    }
    if state[0] == u64::MAX {
        return Err((21, 0));
    }
    *state = state_at(&plan, state[0] + 1);
    Ok(())
}

/// The loads of the first blocks.
pub fn count(b: &[u8], blocks: u64) -> Result<u64, Refused> {
    let plan = judge(b)?;
    if blocks > 1_000_000_000_000 {
        return Err((19, 0));
    }
    if blocks == 0 {
        return Ok(0);
    }
    let (starts, ends) = plan.edges();
    let mut carried = 0;
    for r in 0..plan.engines {
        let next = plan.row(&starts, &ends, r, 1);
        if ends[r as usize].is_some() && ends[r as usize] == starts[next as usize] {
            carried += 1;
        }
    }
    Ok(plan.runs as u64 + (blocks - 1) * (plan.runs as u64 - carried))
}

/// The block length and the blocks of duties for shares, after refusals 1 to 5, 22 and 7.
pub fn blocks_of(engines: u32, services: &[u32], periods: &[u32]) -> Result<(u32, u32), Refused> {
    in_range(engines, services, periods)?;
    let t = periods.iter().fold(0, |g, &d| gcd(g, d));
    let most = 4_096 * t as u64;
    let mut all = t as u64;
    for &d in periods {
        all *= (d / gcd(d, (all % d as u64) as u32)) as u64;
        if all > most {
            return Err((22, 0));
        }
    }
    let load: u64 = services.iter().zip(periods).map(|(&c, &d)| c as u64 * (all / d as u64)).sum();
    if load > engines as u64 * all {
        return Err((7, 0));
    }
    Ok((t, (all / t as u64) as u32))
}

/// A duty on its way from block to block: it needs `whole + part / below`, and `slice + over / below` more in each
/// block.
#[derive(Clone, Copy, Default)]
struct Way {
    whole: i32,
    part: u32,
    below: u32,
    slice: i32,
    over: u32,
}

/// Duties that were looked at for shares, up to refusal 7.
#[derive(Clone, Copy)]
struct Shared {
    engines: u32,
    ticks: u32,
    blocks: u32,
    duties: usize,
    ways: [Way; 64],
}

/// Refusals 1 to 5, 22 and 7.
fn shared(engines: u32, services: &[u32], periods: &[u32]) -> Result<Shared, Refused> {
    let (ticks, blocks) = blocks_of(engines, services, periods)?;
    let mut ways = [Way::default(); 64];
    for (way, (&c, &d)) in ways.iter_mut().zip(services.iter().zip(periods)) {
        let below = d / ticks;
        let (slice, over) = ((c / below) as i32, c % below);
        *way = Way { whole: slice, part: over, below, slice, over };
    }
    Ok(Shared { engines, ticks, blocks, duties: services.len(), ways })
}

impl Shared {
    /// One block of SA2: hands over what each duty gets and moves the needs on; false where a duty gets fewer than 0
    /// units or the block is too full.
    #[inline(always)]
    fn block(&mut self, mut give: impl FnMut(usize, i32)) -> bool {
        let t = self.ticks as i32;
        let ways = &mut self.ways[..self.duties];
        let mut free = self.engines as i32 * t - ways.iter().map(|x| x.whole).sum::<i32>();
        let mut stands = free >= 0;
        for (i, x) in ways.iter_mut().enumerate() {
            let chosen = free > 0 && x.part > 0 && x.whole < t;
            free -= chosen as i32;
            let units = x.whole + chosen as i32;
            stands &= units >= 0;
            give(i, units);
            x.part += x.over;
            let carry = x.part >= x.below;
            if carry {
                x.part -= x.below;
            }
            x.whole = x.slice + carry as i32 - chosen as i32;
        }
        stands
    }
}

/// What is told of a plan of shares: entries, block length, blocks.
pub type Told = (usize, u32, u32);

/// SA2's allotments: one pass that looks for 23, then one that writes.
pub fn shares(engines: u32, services: &[u32], periods: &[u32], out: &mut [u32]) -> Result<Told, Refused> {
    let mut first = shared(engines, services, periods)?;
    let needed = first.blocks as usize * first.duties;
    if out.len() < needed {
        return Err((8, needed as u64));
    }
    let mut again = first;
    for b in 0..first.blocks {
        if !first.block(|_, _| {}) {
            return Err((23, b as u64));
        }
    }
    for block in out[..needed].chunks_exact_mut(again.duties) {
        again.block(|i, units| block[i] = units as u32);
    }
    Ok((needed, first.ticks, first.blocks))
}

/// The same in one pass, into a list of its own that is copied over at the end.
pub fn shares_copied(engines: u32, services: &[u32], periods: &[u32], out: &mut [u32]) -> Result<Told, Refused> {
    let mut first = shared(engines, services, periods)?;
    let needed = first.blocks as usize * first.duties;
    if out.len() < needed {
        return Err((8, needed as u64));
    }
    let mut list = vec![0; needed];
    for (b, block) in list.chunks_exact_mut(first.duties).enumerate() {
        if !first.block(|i, units| block[i] = units as u32) {
            return Err((23, b as u64));
        }
    }
    out[..needed].copy_from_slice(&list);
    Ok((needed, first.ticks, first.blocks))
}

/// Who has a place, where the duties' units lie one after the other.
pub fn duty_at(units: &[i32], place: u64) -> Option<u32> {
    let mut end = 0;
    for (i, &n) in units.iter().enumerate() {
        end += n as u64;
        if place < end {
            return Some(i as u32);
        }
    }
    None
}

/// What an engine does at a tick in the plan of shares.
pub fn share_at(
    engines: u32,
    services: &[u32],
    periods: &[u32],
    engine: u32,
    tick: u64,
) -> Result<Option<u32>, Refused> {
    let mut first = shared(engines, services, periods)?;
    let t = first.ticks as u64;
    let wanted = (tick / t % first.blocks as u64) as u32;
    let mut units = [0i32; 64];
    for b in 0..first.blocks {
        let stands = if b == wanted { first.block(|i, given| units[i] = given) } else { first.block(|_, _| {}) };
        if !stands {
            return Err((23, b as u64));
        }
    }
    if engine >= engines {
        return Err((18, 0));
    }
    Ok(duty_at(&units[..first.duties], engine as u64 * t + tick % t))
}
