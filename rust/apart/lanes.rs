//! Shares in Rust that is written for the processor's lanes, eight duties together: how fast it can be by hand. The
//! benchmark shows the library beside it too; plain Rust is in `plain.rs`.

use crate::plain::{blocks_of, duty_at, Refused, Told};

/// How many duties are moved on together.
const LANES: usize = 8;

/// The ways of eight duties from block to block: each needs `whole + part / below`, and `slice + over / below` more in
/// each block. Where there are fewer duties, the others need nothing.
#[derive(Clone, Copy)]
struct Eight {
    whole: [i32; LANES],
    part: [u32; LANES],
    below: [u32; LANES],
    slice: [i32; LANES],
    over: [u32; LANES],
}

const NOTHING: Eight =
    Eight { whole: [0; LANES], part: [0; LANES], below: [1; LANES], slice: [0; LANES], over: [0; LANES] };

/// Duties that were looked at for shares, up to refusal 7.
#[derive(Clone, Copy)]
struct Shared {
    engines: u32,
    ticks: u32,
    blocks: u32,
    duties: usize,
    ways: [Eight; 64 / LANES],
    /// The sum of the whole parts of what the duties need.
    total: i32,
}

/// Refusals 1 to 5, 22 and 7.
fn shared(engines: u32, services: &[u32], periods: &[u32]) -> Result<Shared, Refused> {
    let (ticks, blocks) = blocks_of(engines, services, periods)?;
    let mut ways = [NOTHING; 64 / LANES];
    let mut total = 0;
    for (i, (&c, &d)) in services.iter().zip(periods).enumerate() {
        let (x, j) = (&mut ways[i / LANES], i % LANES);
        let below = d / ticks;
        let (slice, over) = ((c / below) as i32, c % below);
        (x.whole[j], x.part[j], x.below[j], x.slice[j], x.over[j]) = (slice, over, below, slice, over);
        total += slice;
    }
    Ok(Shared { engines, ticks, blocks, duties: services.len(), ways, total })
}

impl Shared {
    /// One block of SA2: hands over what each duty gets and moves the needs on; false where a duty gets fewer than 0
    /// units or the block is too full.
    #[inline(always)]
    fn block(&mut self, mut give: impl FnMut(usize, &[i32; LANES])) -> bool {
        let t = self.ticks as i32;
        let free = self.engines as i32 * t - self.total;
        let mut before = 0;
        let (mut least, mut sum) = ([0i32; LANES], [0i32; LANES]);
        for (k, x) in self.ways[..self.duties.div_ceil(LANES)].iter_mut().enumerate() {
            // who wants one more, and whether fewer than are free wanted one before it
            let mut one: [i32; LANES] = std::array::from_fn(|j| ((x.part[j] > 0) & (x.whole[j] < t)) as i32);
            for one in &mut one {
                let wants = *one;
                *one &= (before < free) as i32;
                before += wants;
            }
            let units: [i32; LANES] = std::array::from_fn(|j| x.whole[j] + one[j]);
            give(k * LANES, &units);
            for j in 0..LANES {
                least[j] = least[j].min(units[j]);
                let part = x.part[j] + x.over[j];
                let carry = part >= x.below[j];
                x.part[j] = if carry { part - x.below[j] } else { part };
                x.whole[j] = x.slice[j] + carry as i32 - one[j];
                sum[j] += x.whole[j];
            }
        }
        self.total = sum.iter().sum();
        free >= 0 && least.iter().all(|&units| units >= 0)
    }
}

/// Writes what eight duties get into a block, as many as are there.
#[inline(always)]
fn put(block: &mut [u32], at: usize, units: &[i32; LANES]) {
    let units = units.map(|given| given as u32);
    match block.get_mut(at..at + LANES) {
        Some(eight) => eight.copy_from_slice(&units),
        None => block[at..].iter_mut().zip(units).for_each(|(entry, given)| *entry = given),
    }
}

/// SA2's allotments in one pass, into a list of its own that is copied over at the end.
pub fn shares(engines: u32, services: &[u32], periods: &[u32], out: &mut [u32]) -> Result<Told, Refused> {
    let mut first = shared(engines, services, periods)?;
    let needed = first.blocks as usize * first.duties;
    if out.len() < needed {
        return Err((8, needed as u64));
    }
    let mut list = vec![0; needed];
    for (b, block) in list.chunks_exact_mut(first.duties).enumerate() {
        if !first.block(|at, units| put(block, at, units)) {
            return Err((23, b as u64));
        }
    }
    out[..needed].copy_from_slice(&list);
    Ok((needed, first.ticks, first.blocks))
}

/// What an engine does at a tick in the plan of shares.
pub fn share_at(
    engines: u32,
    services: &[u32],
    periods: &[u32],
    engine: u32,
    tick: u64,
) -> Result<Option<u32>, Refused> {
    let mut first = shared(engines, services, periods)?;
    let t = first.ticks as u64;
    let wanted = (tick / t % first.blocks as u64) as u32;
    let mut units = [0i32; 64];
    for b in 0..first.blocks {
        let stands = if b == wanted {
            first.block(|at, given| units[at..at + LANES].copy_from_slice(given))
        } else {
            first.block(|_, _| {})
        };
        if !stands {
            return Err((23, b as u64));
        }
    }
    if engine >= engines {
        return Err((18, 0));
    }
    Ok(duty_at(&units[..first.duties], engine as u64 * t + tick % t))
}
