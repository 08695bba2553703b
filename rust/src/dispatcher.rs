use crate::{calls, Engine, Refusal, Row, Table, MOST_ENGINES};

/// Which row each engine runs in a block, and how to go on to the next block.
///
/// [`rows`](Dispatcher::rows) has all rows at once. A loop over the engines takes as many of them as there are engines:
///
/// ```
/// use tickplume::{Duty, Table};
///
/// let table = Table::build(3, &[Duty { service: 3, period: 4 }; 4], 0)?;
/// let mut dispatcher = table.dispatcher(0)?;
/// for _ in 0..4 {
///     for (engine, row) in table.engines().zip(dispatcher.rows()) {
///         println!("block {}: {engine} has {row}", dispatcher.block());
///     }
///     dispatcher = dispatcher.next(&table)?;
/// }
/// # Ok::<(), tickplume::Refusal>(())
/// ```
#[derive(Clone, Copy, Debug, PartialEq, Eq, Hash)]
#[must_use = "a dispatcher does nothing by itself, and `next` hands another one back"]
pub struct Dispatcher {
    state: [u64; calls::STATE],
}

impl Dispatcher {
    /// A state as the library wrote it.
    pub(crate) fn of(state: [u64; calls::STATE]) -> Dispatcher {
        Dispatcher { state }
    }

    /// A state made by hand: a block number and 32 row numbers. Whether it is the one for its block is looked at by
    /// each call that takes it.
    pub fn from_parts(block: u64, rows: [Row; MOST_ENGINES]) -> Dispatcher {
        let mut state = [0u64; calls::STATE];
        state[0] = block;
        for (entry, row) in state[1..].iter_mut().zip(rows) {
            *entry = u64::from(row.0);
        }
        Dispatcher { state }
    }

    /// The block.
    #[must_use]
    pub fn block(&self) -> u64 {
        self.state[0]
    }

    /// The row of each engine, [`Row`] 0 past the last engine. No call is made for it.
    #[must_use]
    pub fn rows(&self) -> [Row; MOST_ENGINES] {
        std::array::from_fn(|engine| Row(calls::small(self.state[engine + 1])))
    }

    /// The row that an engine runs in this block. Refusal 18 where there is no such engine, then 20 where the state is
    /// not the one for its block.
    pub fn row(&self, table: &Table, engine: Engine) -> Result<Row, Refusal> {
        calls::row(table.as_bytes(), &self.state, engine)
    }

    /// The state of the next block. Refusal 20 where the state is not the one for its block, then 21 at the last block.
    ///
    /// ```
    /// #![deny(unused_must_use)]
    /// # use tickplume::{Duty, Table};
    /// # let table = Table::build(3, &[Duty { service: 3, period: 4 }; 4], 0)?;
    /// let mut dispatcher = table.dispatcher(0)?;
    /// dispatcher = dispatcher.next(&table)?;
    /// assert_eq!(dispatcher.block(), 1);
    /// # Ok::<(), tickplume::Refusal>(())
    /// ```
    ///
    /// This dispatcher stays as it is, so the compiler warns where the next one is dropped:
    ///
    /// ```compile_fail
    /// #![deny(unused_must_use)]
    /// # use tickplume::{Duty, Table};
    /// # let table = Table::build(3, &[Duty { service: 3, period: 4 }; 4], 0)?;
    /// let mut dispatcher = table.dispatcher(0)?;
    /// dispatcher.next(&table)?;
    /// assert_eq!(dispatcher.block(), 1);
    /// # Ok::<(), tickplume::Refusal>(())
    /// ```
    pub fn next(mut self, table: &Table) -> Result<Dispatcher, Refusal> {
        calls::next(table.as_bytes(), &mut self.state)?;
        Ok(self)
    }
}
