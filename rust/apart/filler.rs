//! A second planner, written apart from the proved one. It shares no code with it and takes no short cut: it fills a
//! block unit by unit, walks the blocks one by one and moves the rows at each boundary, and counts loads tick by tick.

/// A refusal: number and place.
pub type Refused = (u8, u64);

/// A duty: service and period.
pub type Duty = (u64, u64);

/// A block: for each row and unit the duty that holds it.
#[derive(Clone, Debug, PartialEq, Eq)]
pub struct Block {
    pub ticks: u64,
    pub duties: Vec<Duty>,
    pub rows: Vec<Vec<Option<u8>>>,
}

/// The greatest common divisor of numbers, none of them 0.
pub fn common_divisor(numbers: impl Iterator<Item = u64> + Clone) -> u64 {
    // the greatest number that divides them all, tried from the top
    let most = numbers.clone().min().unwrap_or(0);
    (1..=most).rev().find(|d| numbers.clone().all(|x| x % d == 0)).unwrap_or(0)
}

/// The duties of two lists, or the first of 1 to 5 that there is.
pub fn duties(engines: u64, services: &[u32], periods: &[u32]) -> Result<Vec<Duty>, Refused> {
    if engines == 0 || engines > 32 {
        return Err((1, 0));
    }
    if services.len() != periods.len() {
        return Err((2, 0));
    }
    if services.is_empty() || services.len() > 64 {
        return Err((3, 0));
    }
    let duties: Vec<Duty> = services.iter().zip(periods).map(|(&c, &d)| (c as u64, d as u64)).collect();
    for (i, &(c, d)) in duties.iter().enumerate() {
        if d == 0 || d > 1_000_000 {
            return Err((4, i as u64));
        }
        if c == 0 || c > d {
            return Err((5, i as u64));
        }
    }
    Ok(duties)
}

/// How block lengths are taken. All but `Published` are errors that look right, planted to see that they are seen.
#[derive(Clone, Copy, PartialEq, Eq)]
pub enum Lengths {
    Published,
    /// The builder takes the greatest length, whatever is asked for.
    Ignored,
    /// The builder looks for 24 after 6 and 7, as its number has it.
    LookedForLate,
    /// The judge accepts the greatest length alone.
    GreatestAlone,
}

/// Whether so many ticks divide every period.
fn divides(ticks: u64, duties: &[Duty]) -> bool {
    duties.iter().all(|&(_, d)| d % ticks == 0)
}

/// The block length that the builder takes: for 0 the greatest, else what is wanted, or 24.
fn block_length(duties: &[Duty], wanted: u64, lengths: Lengths) -> Result<u64, Refused> {
    if wanted == 0 || lengths == Lengths::Ignored {
        return Ok(common_divisor(duties.iter().map(|x| x.1)));
    }
    if divides(wanted, duties) {
        Ok(wanted)
    } else {
        Err((24, 0))
    }
}

/// Whether the judge accepts a block length.
fn accepts(ticks: u64, duties: &[Duty], lengths: Lengths) -> bool {
    match lengths {
        Lengths::GreatestAlone => ticks == common_divisor(duties.iter().map(|x| x.1)),
        _ => divides(ticks, duties),
    }
}

/// Fills one block of the wanted length from the duties, one unit after the other.
pub fn fill(engines: u64, services: &[u32], periods: &[u32], wanted: u32, lengths: Lengths) -> Result<Block, Refused> {
    let duties = duties(engines, services, periods)?;
    let told = block_length(&duties, wanted as u64, lengths);
    let ticks = match told {
        Err(_) if lengths == Lengths::LookedForLate => block_length(&duties, 0, lengths)?,
        told => told?,
    };
    for (i, &(c, d)) in duties.iter().enumerate() {
        if c % (d / ticks) != 0 {
            return Err((6, i as u64));
        }
    }
    let needed: u64 = duties.iter().map(|&(c, d)| c / (d / ticks)).sum();
    if needed > engines * ticks {
        return Err((7, 0));
    }
    told?;
    let mut rows = vec![vec![None; ticks as usize]; engines as usize];
    let mut place = 0u64;
    for (i, &(c, d)) in duties.iter().enumerate() {
        for _ in 0..c / (d / ticks) {
            rows[(place / ticks) as usize][(place % ticks) as usize] = Some(i as u8);
            place += 1;
        }
    }
    Ok(Block { ticks, duties, rows })
}

/// The runs of a filled block, read off it: row, duty, first unit, length.
pub fn runs(block: &Block) -> Vec<(u64, u64, u64, u64)> {
    let mut out: Vec<(u64, u64, u64, u64)> = Vec::new();
    for (r, row) in block.rows.iter().enumerate() {
        for (u, held) in row.iter().enumerate() {
            let Some(i) = *held else { continue };
            if u > 0 && row[u - 1] == Some(i) {
                out.last_mut().unwrap().3 += 1;
            } else {
                out.push((r as u64, i as u64, u as u64, 1));
            }
        }
    }
    out
}

/// The bytes of a table with these runs.
pub fn bytes(ticks: u64, engines: u64, duties: &[Duty], runs: &[(u64, u64, u64, u64)]) -> Vec<u8> {
    let mut out = vec![1];
    out.extend_from_slice(&(ticks as u32).to_le_bytes());
    out.push(engines as u8);
    out.push(duties.len() as u8);
    for &(c, d) in duties {
        out.push(2);
        out.extend_from_slice(&(c as u32).to_le_bytes());
        out.extend_from_slice(&(d as u32).to_le_bytes());
    }
    for &(r, i, u, n) in runs {
        out.extend_from_slice(&[3, r as u8, i as u8]);
        out.extend_from_slice(&(u as u32).to_le_bytes());
        out.extend_from_slice(&(n as u32).to_le_bytes());
    }
    out.push(4);
    out.extend_from_slice(&(runs.len() as u16).to_le_bytes());
    out
}

/// What was built: the bytes, or the refusal.
pub fn build(
    engines: u64,
    services: &[u32],
    periods: &[u32],
    wanted: u32,
    room: usize,
    lengths: Lengths,
) -> Result<Vec<u8>, Refused> {
    let block = fill(engines, services, periods, wanted, lengths)?;
    let table = bytes(block.ticks, engines, &block.duties, &runs(&block));
    if table.len() > room {
        return Err((8, table.len() as u64));
    }
    Ok(table)
}

fn number(b: &[u8]) -> u64 {
    b.iter().rev().fold(0, |v, &x| v * 256 + x as u64)
}

/// Reads any bytes and fills the block that they describe, unit by unit, or finds the fault.
pub fn judge(b: &[u8], lengths: Lengths) -> Result<Block, Refused> {
    let form = |at: usize| Err((10, at as u64));
    if b.len() < 7 || b[0] != 1 {
        return form(0);
    }
    let (ticks, engines, count) = (number(&b[1..5]), b[5] as u64, b[6] as usize);
    if ticks == 0 || ticks > 1_000_000 || engines == 0 || engines > 32 || count == 0 || count > 64 {
        return form(0);
    }
    let mut at = 7;
    let mut duties = Vec::new();
    for _ in 0..count {
        if b.len() < at + 9 || b[at] != 2 {
            return form(at);
        }
        let (c, d) = (number(&b[at + 1..at + 5]), number(&b[at + 5..at + 9]));
        if d == 0 || d > 1_000_000 || c == 0 || c > d {
            return form(at);
        }
        duties.push((c, d));
        at += 9;
    }
    let mut runs = Vec::new();
    while at < b.len() && b[at] == 3 {
        if b.len() < at + 11 || runs.len() == 128 {
            return form(at);
        }
        let (r, i) = (b[at + 1] as u64, b[at + 2] as usize);
        let (u, n) = (number(&b[at + 3..at + 7]), number(&b[at + 7..at + 11]));
        if r >= engines || i >= count || n == 0 || u + n > ticks {
            return form(at);
        }
        runs.push((r as usize, i, u as usize, n as usize));
        at += 11;
    }
    if b.len() < at + 3 || b[at] != 4 || number(&b[at + 1..at + 3]) != runs.len() as u64 {
        return form(at);
    }
    if b.len() > at + 3 {
        return form(at + 3);
    }
    if !accepts(ticks, &duties, lengths) {
        return Err((11, 0));
    }
    if let Some(i) = duties.iter().position(|&(c, d)| c % (d / ticks) != 0) {
        return Err((12, i as u64));
    }
    if let Some(k) = (1..runs.len()).find(|&k| (runs[k - 1].0, runs[k - 1].2) >= (runs[k].0, runs[k].2)) {
        return Err((13, k as u64));
    }
    let mut rows = vec![vec![None; ticks as usize]; engines as usize];
    for (k, &(r, i, u, n)) in runs.iter().enumerate() {
        for held in &mut rows[r][u..u + n] {
            if held.is_some() {
                return Err((14, k as u64));
            }
            *held = Some(i as u8);
        }
    }
    if let Some(k) = runs.iter().position(|&(r, i, u, _)| u > 0 && rows[r][u - 1] == Some(i as u8)) {
        return Err((15, k as u64));
    }
    let mut taken = vec![vec![None; ticks as usize]; count];
    for (k, &(r, i, u, n)) in runs.iter().enumerate() {
        for row in &mut taken[i][u..u + n] {
            if row.is_some_and(|other| other != r as u8) {
                return Err((16, k as u64));
            }
            *row = Some(r as u8);
        }
    }
    let mut units = vec![0; count];
    for held in rows.iter().flatten().flatten() {
        units[*held as usize] += 1;
    }
    if let Some(i) = duties.iter().zip(&units).position(|(&(c, d), &n)| n != c / (d / ticks)) {
        return Err((17, i as u64));
    }
    Ok(Block { ticks, duties, rows })
}

/// For each row whether the next row is chained to it.
pub fn links(block: &Block) -> Vec<bool> {
    let m = block.rows.len();
    (0..m)
        .map(|r| {
            let last = block.rows[r][block.ticks as usize - 1];
            r + 1 < m && last.is_some() && last == block.rows[r + 1][0]
        })
        .collect()
}

/// The lengths of the chains.
pub fn chains(block: &Block) -> Vec<usize> {
    let mut out = vec![0];
    for linked in links(block) {
        *out.last_mut().unwrap() += 1;
        if !linked {
            out.push(0);
        }
    }
    out.pop();
    out
}

/// How a walk moves rows at a boundary. `Backwards` and `OneRing` are errors that look right, planted to see that they
/// are seen.
#[derive(Clone, Copy, PartialEq, Eq)]
pub enum Turn {
    Published,
    Backwards,
    OneRing,
    Never,
}

/// The walk from block 0: which row each engine has.
pub struct Walk {
    links: Vec<bool>,
    turn: Turn,
    pub block: u64,
    pub rows: Vec<usize>,
}

impl Walk {
    pub fn new(block: &Block, turn: Turn) -> Walk {
        Walk { links: links(block), turn, block: 0, rows: (0..block.rows.len()).collect() }
    }

    /// One boundary: inside each chain an engine takes the row that the engine numbered one higher had, and the
    /// chain's last engine takes the row that its first had.
    pub fn step(&mut self) {
        let m = self.rows.len();
        let old = self.rows.clone();
        let mut first = 0;
        for e in 0..m {
            let last = if self.turn == Turn::OneRing { e + 1 == m } else { !self.links[e] };
            match self.turn {
                Turn::Never => {}
                Turn::Backwards => {
                    let from = if e == first { chain_end(&self.links, e) } else { e - 1 };
                    self.rows[e] = old[from];
                }
                _ => self.rows[e] = if last { old[first] } else { old[e + 1] },
            }
            if last {
                first = e + 1;
            }
        }
        self.block += 1;
    }
}

fn chain_end(links: &[bool], mut e: usize) -> usize {
    while links[e] {
        e += 1;
    }
    e
}

/// Loads of each of the first blocks, counted tick by tick along the walk.
pub fn loads(block: &Block, blocks: u64, turn: Turn) -> Vec<u64> {
    let mut walk = Walk::new(block, turn);
    let mut before = vec![None; block.rows.len()];
    let mut out = Vec::new();
    for _ in 0..blocks {
        let mut count = 0;
        for u in 0..block.ticks as usize {
            for (e, &r) in walk.rows.iter().enumerate() {
                let now = block.rows[r][u];
                if now.is_some() && now != before[e] {
                    count += 1;
                }
                before[e] = now;
            }
        }
        out.push(count);
        walk.step();
    }
    out
}
