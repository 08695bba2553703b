use crate::{calls, Duty, Engine, Held, Refusal, RefusalKind};
use std::fmt;

/// What is told of a plan of shares beside its allotments.
#[derive(Clone, Copy, Debug, PartialEq, Eq, Hash)]
pub struct ShareReading {
    /// Entries of the allotments: blocks times duties.
    pub entries: usize,
    /// Ticks in a block: the periods' greatest common divisor.
    pub block_length: u32,
    /// Blocks up to the periods' least common multiple, after which the plan goes on from the first again.
    pub blocks: u32,
}

/// `block length 10, blocks 6, entries 36`.
impl fmt::Display for ShareReading {
    fn fmt(&self, f: &mut fmt::Formatter<'_>) -> fmt::Result {
        write!(f, "block length {}, blocks {}, entries {}", self.block_length, self.blocks, self.entries)
    }
}

/// A plan of shares: SA2's plan of duties whose share of a block, T · service / period, need not be whole.
///
/// A duty gets other numbers of units from block to block, so that each of its jobs gets exactly its service. Within a
/// block the rows are laid as in a [`Table`](crate::Table), but nothing rotates: engine i keeps row i.
///
/// ```
/// use tickplume::{Duty, Engine, Held, Shares};
///
/// let d = |service, period| Duty { service, period };
/// let shares = Shares::build(3, &[d(6, 10), d(11, 20), d(23, 30), d(6, 20), d(5, 30), d(37, 60)])?;
/// assert_eq!((shares.block_length(), shares.blocks()), (10, 6));
///
/// // Duty 1 has a share of 5 1/2 units: 6 in block 0, 5 in block 1, and so on.
/// assert_eq!(shares.allotted(0), [6, 6, 8, 3, 1, 6]);
/// assert_eq!(shares.allotted(1), [6, 5, 8, 3, 2, 6]);
///
/// // In block 0 duty 1 has the last four units of engine 0 and the first two of engine 1.
/// assert_eq!(shares.at(Engine(0), 6)?, Held::Duty(1));
/// assert_eq!(shares.at(Engine(1), 1)?, Held::Duty(1));
/// # Ok::<(), tickplume::Refusal>(())
/// ```
///
/// SA2 does not find a plan for every set of duties that the engines could serve. Where its steps would give a duty
/// fewer than 0 units, or a block more than the engines have, it is refused with 23 and the first such block. Here duty
/// 1 gets its one tick in block 1, ahead of its share. In block 2 duties 0 and 2 want a unit each and the engine has
/// one: the steps would give duty 1 one unit fewer than none.
///
/// ```
/// use tickplume::{Duty, Shares};
///
/// let d = |service, period| Duty { service, period };
/// let refusal = Shares::build(1, &[d(1, 2), d(1, 6), d(1, 3)]).unwrap_err();
/// assert_eq!((refusal.number, refusal.place), (23, 2));
/// ```
#[derive(Clone, PartialEq, Eq, Hash)]
pub struct Shares {
    engines: u32,
    duties: Vec<Duty>,
    allotments: Vec<u32>,
    reading: ShareReading,
}

impl Shares {
    /// The plan that SA2 makes of the duties, on so many engines. Refusals 1, 3 to 5, 22, 7 and 23.
    pub fn build(engines: u32, duties: &[Duty]) -> Result<Shares, Refusal> {
        let (services, periods) = calls::lists(duties);
        let mut allotments = vec![0; entries_needed(engines, &services, &periods)?];
        let reading = calls::shares(engines, &services, &periods, &mut allotments)?;
        Ok(Shares { engines, duties: duties.to_vec(), allotments, reading })
    }

    /// Block length, blocks and entries of the allotments, as numbers.
    #[must_use]
    pub fn reading(&self) -> ShareReading {
        self.reading
    }

    /// How many engines.
    #[must_use]
    pub fn engines(&self) -> u32 {
        self.engines
    }

    /// The duties.
    #[must_use]
    pub fn duties(&self) -> &[Duty] {
        &self.duties
    }

    /// Ticks in a block.
    #[must_use]
    pub fn block_length(&self) -> u32 {
        self.reading.block_length
    }

    /// Blocks until the plan goes on from the first again.
    #[must_use]
    pub fn blocks(&self) -> u32 {
        self.reading.blocks
    }

    /// How many units each duty has in a block. Any block: after the last come the first again.
    ///
    /// ```
    /// use tickplume::{Duty, Shares};
    /// let shares = Shares::build(1, &[Duty { service: 1, period: 2 }, Duty { service: 1, period: 4 }])?;
    /// assert_eq!(shares.allotted(0), [1, 1]);
    /// assert_eq!(shares.allotted(1), [1, 0]);
    /// assert_eq!(shares.allotted(u64::MAX), [1, 0]);
    /// # Ok::<(), tickplume::Refusal>(())
    /// ```
    #[must_use]
    pub fn allotted(&self, block: u64) -> &[u32] {
        // The library told at least one block, and wrote as many entries for each as there are duties.
        let duties = self.duties.len();
        let first = calls::length(block % u64::from(self.reading.blocks)) * duties;
        &self.allotments[first..first + duties]
    }

    /// The direct question: what does the engine do at the tick? Refusal 18 where there is no such engine. The library
    /// works the plan out from the duties again, so this takes the time of going through all blocks, whatever the tick.
    ///
    /// ```
    /// use tickplume::{Duty, Engine, Held, Shares};
    /// let shares = Shares::build(1, &[Duty { service: 1, period: 2 }, Duty { service: 1, period: 4 }])?;
    /// let held = |tick| shares.at(Engine(0), tick);
    /// assert_eq!([held(0)?, held(1)?, held(2)?, held(3)?], [Held::Duty(0), Held::Duty(1), Held::Duty(0), Held::Idle]);
    /// assert_eq!(shares.at(Engine(1), 0).unwrap_err().number, 18);
    /// # Ok::<(), tickplume::Refusal>(())
    /// ```
    pub fn at(&self, engine: Engine, tick: u64) -> Result<Held, Refusal> {
        let (services, periods) = calls::lists(&self.duties);
        calls::share_at(self.engines, &services, &periods, engine, tick)
    }
}

/// Without the allotments, which may be 262,144 numbers.
impl fmt::Debug for Shares {
    fn fmt(&self, f: &mut fmt::Formatter<'_>) -> fmt::Result {
        f.debug_struct("Shares")
            .field("engines", &self.engines)
            .field("duties", &self.duties)
            .field("reading", &self.reading)
            .finish_non_exhaustive()
    }
}

/// How many entries the allotments have: where none are lent, the library refuses with 8 and names them.
fn entries_needed(engines: u32, services: &[u32], periods: &[u32]) -> Result<usize, Refusal> {
    match calls::shares(engines, services, periods, &mut []) {
        Ok(reading) => Ok(reading.entries),
        Err(refusal) if refusal.kind() == RefusalKind::NoRoom => Ok(calls::length(refusal.place)),
        Err(refusal) => Err(refusal),
    }
}
