use crate::{calls, listing, Chain, Dispatcher, Duty, Engine, Reading, Refusal, Reply, Row, Run, MOST_BYTES};
use std::fmt;

/// An accepted table: the plan of one block, and how its rows move from block to block.
///
/// A table is its bytes, which [`build`](Table::build) makes and [`from_bytes`](Table::from_bytes) takes from anybody.
/// What is in it can be listed:
///
/// ```
/// use tickplume::{Chain, Duty, Row, Run, Table};
///
/// // Three duties of 2 ticks in every 3, on two engines.
/// let duty = Duty { service: 2, period: 3 };
/// let table = Table::build(2, &[duty; 3], 0)?;
/// assert_eq!(table.block_length(), 3);
/// assert_eq!(table.duties(), [duty, duty, duty]);
///
/// // Duty 1 is split: it has the last unit of row 0 and the first of row 1.
/// assert_eq!(table.runs()[1], Run { row: Row(0), duty: 1, first: 2, length: 1 });
/// assert_eq!(table.runs()[2], Run { row: Row(1), duty: 1, first: 0, length: 1 });
///
/// // So the two rows are a chain: the two engines swap them at each block.
/// assert_eq!(table.chains(), [Chain { first: Row(0), length: 2 }]);
/// # Ok::<(), tickplume::Refusal>(())
/// ```
///
/// Printed it is the text of the repository's plan program: a line for the plan (block length, engines, duties), for
/// each duty (number, service, period), run (row, duty, first unit, length) and chain (first row, length), and one with
/// the loads of block 0 and of each later block.
///
/// ```
/// # use tickplume::{Duty, Table};
/// # let table = Table::build(2, &[Duty { service: 2, period: 3 }; 3], 0)?;
/// let text = "\
/// plan 3 2 3
/// duty 0 2 3
/// duty 1 2 3
/// duty 2 2 3
/// run 0 0 0 2
/// run 0 1 2 1
/// run 1 1 0 1
/// run 1 2 1 2
/// chain 0 2
/// loads 4 3";
/// assert_eq!(table.to_string(), text);
/// # Ok::<(), tickplume::Refusal>(())
/// ```
#[derive(Clone, PartialEq, Eq, Hash)]
pub struct Table {
    bytes: Vec<u8>,
    reading: Reading,
    duties: Vec<Duty>,
    runs: Vec<Run>,
    chains: Vec<Chain>,
}

impl Table {
    /// The plan that SA1 makes of the duties, on so many engines, in blocks of `block_length` ticks. That has to divide
    /// every period; 0 asks for the greatest common divisor of the periods. Refusals 1, 3 to 5, 24, 6 and 7, in this
    /// order.
    ///
    /// Of each block a duty has its share. So in shorter blocks it runs more often, and not as long at a time:
    ///
    /// ```
    /// use tickplume::{Duty, RefusalKind, Table};
    ///
    /// // Three duties of 40 ticks in every 60, on two engines.
    /// let duties = [Duty { service: 40, period: 60 }; 3];
    /// let longest = Table::build(2, &duties, 0)?;
    /// assert_eq!(longest.reading().block_length, 60);
    /// assert_eq!(longest.runs()[0].units(), 0..40);
    /// let shorter = Table::build(2, &duties, 3)?;
    /// assert_eq!(shorter.reading().block_length, 3);
    /// assert_eq!(shorter.runs()[0].units(), 0..2);
    ///
    /// // 7 does not divide 60. 20 does, but a duty's share of 20 ticks would be 13 1/3.
    /// assert_eq!(Table::build(2, &duties, 7).unwrap_err().kind(), RefusalKind::WantedLength);
    /// assert_eq!(Table::build(2, &duties, 20).unwrap_err().kind(), RefusalKind::SliceNotWhole);
    /// # Ok::<(), tickplume::Refusal>(())
    /// ```
    pub fn build(engines: u32, duties: &[Duty], block_length: u32) -> Result<Table, Refusal> {
        let (services, periods) = calls::lists(duties);
        let mut bytes = vec![0u8; MOST_BYTES];
        let length = calls::build(engines, &services, &periods, block_length, &mut bytes)?;
        bytes.truncate(length);
        Table::from_bytes(bytes)
    }

    /// A table that anybody wrote, judged. Refusals 10 to 17.
    ///
    /// ```
    /// use tickplume::{Duty, RefusalKind, Table};
    ///
    /// let table = Table::build(2, &[Duty { service: 2, period: 3 }; 3], 0)?;
    /// let stored = table.as_bytes().to_vec();
    /// assert_eq!(Table::from_bytes(stored)?, table);
    ///
    /// let cut = &table.as_bytes()[..40];
    /// assert_eq!(Table::try_from(cut).unwrap_err().kind(), RefusalKind::TableForm);
    /// # Ok::<(), tickplume::Refusal>(())
    /// ```
    pub fn from_bytes(bytes: Vec<u8>) -> Result<Table, Refusal> {
        let reading = calls::judge(&bytes)?;
        let chains = listing::chains(&calls::start(&bytes, 1)?, reading.engines);
        let (duties, runs) = listing::duties_and_runs(&bytes);
        Ok(Table { bytes, reading, duties, runs, chains })
    }

    /// The table's bytes.
    #[must_use]
    pub fn as_bytes(&self) -> &[u8] {
        &self.bytes
    }

    /// The table's bytes, for the caller to keep.
    #[must_use]
    pub fn into_bytes(self) -> Vec<u8> {
        self.bytes
    }

    /// Block length, engines, duties and runs, as numbers.
    #[must_use]
    pub fn reading(&self) -> Reading {
        self.reading
    }

    /// Ticks in a block, a number that divides every period.
    #[must_use]
    pub fn block_length(&self) -> u32 {
        self.reading.block_length
    }

    /// The engines, by number.
    pub fn engines(&self) -> impl ExactSizeIterator<Item = Engine> {
        (0..self.reading.engines).map(Engine)
    }

    /// The rows, by number. There are as many as engines; which engine runs which is told by
    /// [`rows_in`](Table::rows_in).
    pub fn rows(&self) -> impl ExactSizeIterator<Item = Row> {
        (0..self.reading.engines).map(Row)
    }

    /// The duties, by number.
    #[must_use]
    pub fn duties(&self) -> &[Duty] {
        &self.duties
    }

    /// The runs, by row and then by first unit.
    #[must_use]
    pub fn runs(&self) -> &[Run] {
        &self.runs
    }

    /// The chains, by first row. Each row is in one of them.
    #[must_use]
    pub fn chains(&self) -> &[Chain] {
        &self.chains
    }

    /// The direct question: what does the engine do at the tick? Any tick. Refusal 18 where there is no such engine.
    ///
    /// ```
    /// use tickplume::{Duty, Engine, Held, Row, Table};
    /// let d = |service, period| Duty { service, period };
    /// let table = Table::build(2, &[d(1, 3), d(3, 3), d(1, 3)], 0)?;
    /// let reply = table.at(Engine(1), 2)?;
    /// assert_eq!((reply.held, reply.row), (Held::Idle, Row(1)));
    /// assert_eq!(table.at(Engine(2), 0).unwrap_err().number, 18);
    /// # Ok::<(), tickplume::Refusal>(())
    /// ```
    pub fn at(&self, engine: Engine, tick: u64) -> Result<Reply, Refusal> {
        calls::question(&self.bytes, engine, tick)
    }

    /// The row of each engine in a block. Any block. The library is asked once for all engines.
    ///
    /// ```
    /// use tickplume::{Duty, Engine, Row, Table};
    /// // Four duties of 3 ticks in every 4, on three engines: one chain of three rows.
    /// let table = Table::build(3, &[Duty { service: 3, period: 4 }; 4], 0)?;
    /// for block in 0..4 {
    ///     for (engine, row) in table.rows_in(block)? {
    ///         println!("block {block}: {engine} has {row}");
    ///     }
    /// }
    /// assert!(table.rows_in(1)?.eq([(Engine(0), Row(1)), (Engine(1), Row(2)), (Engine(2), Row(0))]));
    /// # Ok::<(), tickplume::Refusal>(())
    /// ```
    pub fn rows_in(&self, block: u64) -> Result<impl ExactSizeIterator<Item = (Engine, Row)>, Refusal> {
        Ok(self.engines().zip(self.dispatcher(block)?.rows()))
    }

    /// The loads of the first `blocks` blocks: how often an engine begins to run a duty that it did not run one tick
    /// before. Refusal 19 above 1,000,000,000,000 blocks.
    pub fn loads(&self, blocks: u64) -> Result<u64, Refusal> {
        calls::count(&self.bytes, blocks)
    }

    /// A dispatcher that starts at a block. Any block.
    ///
    /// ```
    /// use tickplume::{Duty, Engine, Row, Table};
    /// let duty = Duty { service: 3, period: 4 };
    /// let table = Table::build(3, &[duty; 4], 0)?;
    /// let mut dispatcher = table.dispatcher(0)?;
    /// let mut rows = Vec::new();
    /// for _ in 0..4 {
    ///     rows.push(dispatcher.row(&table, Engine(0))?);
    ///     dispatcher = dispatcher.next(&table)?;
    /// }
    /// assert_eq!(rows, [Row(0), Row(1), Row(2), Row(0)]);
    /// # Ok::<(), tickplume::Refusal>(())
    /// ```
    pub fn dispatcher(&self, block: u64) -> Result<Dispatcher, Refusal> {
        Ok(Dispatcher::of(calls::start(&self.bytes, block)?))
    }
}

impl AsRef<[u8]> for Table {
    fn as_ref(&self) -> &[u8] {
        &self.bytes
    }
}

impl TryFrom<Vec<u8>> for Table {
    type Error = Refusal;

    fn try_from(bytes: Vec<u8>) -> Result<Table, Refusal> {
        Table::from_bytes(bytes)
    }
}

impl TryFrom<&[u8]> for Table {
    type Error = Refusal;

    fn try_from(bytes: &[u8]) -> Result<Table, Refusal> {
        Table::from_bytes(bytes.to_vec())
    }
}

/// What the bytes hold, in place of the bytes.
impl fmt::Debug for Table {
    fn fmt(&self, f: &mut fmt::Formatter<'_>) -> fmt::Result {
        f.debug_struct("Table")
            .field("reading", &self.reading)
            .field("duties", &self.duties)
            .field("runs", &self.runs)
            .field("chains", &self.chains)
            .finish()
    }
}

/// What the plan program prints, without the last line feed.
impl fmt::Display for Table {
    fn fmt(&self, f: &mut fmt::Formatter<'_>) -> fmt::Result {
        let Reading { block_length, engines, duties, .. } = self.reading;
        writeln!(f, "plan {block_length} {engines} {duties}")?;
        for (number, duty) in self.duties.iter().enumerate() {
            writeln!(f, "duty {number} {} {}", duty.service, duty.period)?;
        }
        for run in &self.runs {
            writeln!(f, "{run}")?;
        }
        for chain in &self.chains {
            writeln!(f, "{chain}")?;
        }
        // An accepted table's loads are not refused.
        let first = self.loads(1).map_err(|_| fmt::Error)?;
        let both = self.loads(2).map_err(|_| fmt::Error)?;
        write!(f, "loads {first} {}", both - first)
    }
}
