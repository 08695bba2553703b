//! The words of a plan as types. Rows and engines are two of them, and nothing here turns one into the other.

use std::fmt;
use std::ops::Range;

/// A duty: `service` ticks in each period of `period` ticks.
#[derive(Clone, Copy, Debug, PartialEq, Eq, Hash, PartialOrd, Ord)]
pub struct Duty {
    /// Ticks of service in each period.
    pub service: u32,
    /// The period, in ticks.
    pub period: u32,
}

/// A packet engine, the hardware.
///
/// An engine is asked for by its number, and no [`Row`] will do: which row an engine runs changes from block to block.
///
/// ```
/// # use tickplume::{Duty, Engine, Row, Table};
/// # let table = Table::build(2, &[Duty { service: 2, period: 3 }; 3], 0)?;
/// let reply = table.at(Engine(1), 5)?;
/// # Ok::<(), tickplume::Refusal>(())
/// ```
///
/// With a row in its place the same program does not compile:
///
/// ```compile_fail,E0308
/// # use tickplume::{Duty, Engine, Row, Table};
/// # let table = Table::build(2, &[Duty { service: 2, period: 3 }; 3], 0)?;
/// let reply = table.at(Row(1), 5)?;
/// # Ok::<(), tickplume::Refusal>(())
/// ```
#[derive(Clone, Copy, Debug, PartialEq, Eq, Hash, PartialOrd, Ord)]
pub struct Engine(pub u32);

/// A line of the plan for one block. Which engine runs it changes from block to block.
///
/// The runs of a table stand on rows, and a row is compared with rows:
///
/// ```
/// # use tickplume::{Duty, Engine, Row, Table};
/// # let table = Table::build(2, &[Duty { service: 2, period: 3 }; 3], 0)?;
/// let runs = table.runs().iter().filter(|run| run.row == Row(1));
/// # assert_eq!(runs.count(), 2);
/// # Ok::<(), tickplume::Refusal>(())
/// ```
///
/// With an engine in its place the same program does not compile:
///
/// ```compile_fail,E0308
/// # use tickplume::{Duty, Engine, Row, Table};
/// # let table = Table::build(2, &[Duty { service: 2, period: 3 }; 3], 0)?;
/// let runs = table.runs().iter().filter(|run| run.row == Engine(1));
/// # assert_eq!(runs.count(), 2);
/// # Ok::<(), tickplume::Refusal>(())
/// ```
#[derive(Clone, Copy, Debug, PartialEq, Eq, Hash, PartialOrd, Ord)]
pub struct Row(pub u32);

/// What an engine does at a tick.
#[derive(Clone, Copy, Debug, PartialEq, Eq, Hash, PartialOrd, Ord)]
pub enum Held {
    /// Nothing.
    Idle,
    /// The duty of this number.
    Duty(u32),
}

impl Held {
    /// The number of the duty, none where the engine is idle.
    ///
    /// ```
    /// use tickplume::Held;
    /// assert_eq!(Held::Duty(7).duty(), Some(7));
    /// assert_eq!(Held::Idle.duty(), None);
    /// ```
    #[must_use]
    pub fn duty(self) -> Option<u32> {
        match self {
            Held::Idle => None,
            Held::Duty(number) => Some(number),
        }
    }
}

/// The answer to the direct question: what the engine does, and from which row.
#[derive(Clone, Copy, Debug, PartialEq, Eq, Hash)]
pub struct Reply {
    /// The duty, or idle.
    pub held: Held,
    /// The row that the engine runs in the tick's block.
    pub row: Row,
}

/// What a judge reads off an accepted table.
#[derive(Clone, Copy, Debug, PartialEq, Eq, Hash)]
pub struct Reading {
    /// Ticks in a block, a number that divides every period.
    pub block_length: u32,
    /// How many engines, and rows.
    pub engines: u32,
    /// How many duties.
    pub duties: u32,
    /// How many runs.
    pub runs: u32,
}

/// A stretch of units on one row that one duty has.
#[derive(Clone, Copy, Debug, PartialEq, Eq, Hash)]
pub struct Run {
    /// The row.
    pub row: Row,
    /// The number of the duty.
    pub duty: u32,
    /// The first unit: 0 is the block's first tick.
    pub first: u32,
    /// How many units.
    pub length: u32,
}

impl Run {
    /// The run's units.
    ///
    /// ```
    /// use tickplume::{Row, Run};
    /// let run = Run { row: Row(0), duty: 4, first: 2, length: 3 };
    /// assert_eq!(run.units(), 2..5);
    /// ```
    #[must_use]
    pub fn units(&self) -> Range<u32> {
        self.first..self.first.saturating_add(self.length)
    }
}

/// Rows that move together: each row of a chain but the last ends with a duty that goes on at the start of the next
/// row. From block to block the engines of a chain pass its rows on; a row alone is a chain of length 1 and stays.
#[derive(Clone, Copy, Debug, PartialEq, Eq, Hash)]
pub struct Chain {
    /// The first row.
    pub first: Row,
    /// How many rows, one after the other.
    pub length: u32,
}

impl Chain {
    /// The chain's rows.
    ///
    /// ```
    /// use tickplume::{Chain, Row};
    /// assert!(Chain { first: Row(2), length: 2 }.rows().eq([Row(2), Row(3)]));
    /// ```
    pub fn rows(&self) -> impl ExactSizeIterator<Item = Row> {
        (self.first.0..self.first.0.saturating_add(self.length)).map(Row)
    }
}

/// `2 in every 3`.
impl fmt::Display for Duty {
    fn fmt(&self, f: &mut fmt::Formatter<'_>) -> fmt::Result {
        f.pad(&format!("{} in every {}", self.service, self.period))
    }
}

/// `engine 1`.
impl fmt::Display for Engine {
    fn fmt(&self, f: &mut fmt::Formatter<'_>) -> fmt::Result {
        f.pad(&format!("engine {}", self.0))
    }
}

/// `row 1`.
impl fmt::Display for Row {
    fn fmt(&self, f: &mut fmt::Formatter<'_>) -> fmt::Result {
        f.pad(&format!("row {}", self.0))
    }
}

/// `duty 2`, or `idle`.
impl fmt::Display for Held {
    fn fmt(&self, f: &mut fmt::Formatter<'_>) -> fmt::Result {
        match self {
            Held::Idle => f.pad("idle"),
            Held::Duty(number) => f.pad(&format!("duty {number}")),
        }
    }
}

/// `duty 2 on row 1`, or `idle on row 1`.
impl fmt::Display for Reply {
    fn fmt(&self, f: &mut fmt::Formatter<'_>) -> fmt::Result {
        f.pad(&format!("{} on {}", self.held, self.row))
    }
}

/// `block length 3, engines 2, duties 3, runs 4`.
impl fmt::Display for Reading {
    fn fmt(&self, f: &mut fmt::Formatter<'_>) -> fmt::Result {
        let Reading { block_length, engines, duties, runs } = self;
        write!(f, "block length {block_length}, engines {engines}, duties {duties}, runs {runs}")
    }
}

/// The plan program's line: `run`, then row, duty, first unit and length.
impl fmt::Display for Run {
    fn fmt(&self, f: &mut fmt::Formatter<'_>) -> fmt::Result {
        write!(f, "run {} {} {} {}", self.row.0, self.duty, self.first, self.length)
    }
}

/// The plan program's line: `chain`, then the first row and the length.
impl fmt::Display for Chain {
    fn fmt(&self, f: &mut fmt::Formatter<'_>) -> fmt::Result {
        write!(f, "chain {} {}", self.first.0, self.length)
    }
}
