//! Block plans for packet engines, proved down to the byte.
//!
//! A *plan* serves periodic duties on a number of engines. It is made for one block of ticks; its *rows* move from
//! *engine* to engine at each block. A row is a line of the plan, an engine is the hardware: [`Row`] and [`Engine`]
//! are two types, and only the rotation turns one into the other.
//!
//! A [`Table`] is for duties whose slice of a block is whole. Where it is not, a plan of [`Shares`] gives a duty other
//! numbers of units from block to block.
//!
//! The functions here are safe wrappers of a library whose every function is proved to meet its contract, for every
//! input: each call answers, or refuses with a [`Refusal`] and changes nothing. [`calls`] has them over any bytes, one
//! for each function of the library. The crate's README tells where the library comes from, what a call costs and which
//! examples there are.
//!
//! ```
//! use tickplume::{Duty, Engine, Held, Table};
//!
//! // Three duties of 2 ticks in every 3, on two engines; 0 asks for the longest blocks that there are.
//! let duty = Duty { service: 2, period: 3 };
//! let table = Table::build(2, &[duty, duty, duty], 0)?;
//! assert_eq!(table.reading().block_length, 3);
//!
//! // At tick 5 engine 0 has duty 2 and engine 1 duty 1.
//! assert_eq!(table.at(Engine(0), 5)?.held, Held::Duty(2));
//! assert_eq!(table.at(Engine(1), 5)?.held, Held::Duty(1));
//!
//! // 4 loads in block 0, 3 in each later block.
//! assert_eq!(table.loads(1)?, 4);
//! assert_eq!(table.loads(1_000_000_000_000)?, 4 + 3 * 999_999_999_999);
//! # Ok::<(), tickplume::Refusal>(())
//! ```
#![warn(missing_docs)]

pub mod calls;
mod dispatcher;
mod ffi;
mod listing;
mod plan;
mod refusal;
mod shares;
mod table;

pub use dispatcher::Dispatcher;
pub use plan::{Chain, Duty, Engine, Held, Reading, Reply, Row, Run};
pub use refusal::{Refusal, RefusalKind};
pub use shares::{ShareReading, Shares};
pub use table::Table;

/// The README's programs, for `cargo test`.
#[cfg(doctest)]
#[doc = include_str!("../README.md")]
struct Readme;

/// The most engines a plan may have.
pub const MOST_ENGINES: usize = 32;
/// The most duties a plan may have.
pub const MOST_DUTIES: usize = 64;
/// The most runs a table may have.
pub const MOST_RUNS: usize = 128;
/// The longest period, in ticks.
pub const MOST_TICKS: u32 = 1_000_000;
/// The most blocks that a count of loads may span.
pub const MOST_BLOCKS: u64 = 1_000_000_000_000;
/// The length in bytes of the longest table.
pub const MOST_BYTES: usize = 7 + 9 * MOST_DUTIES + 11 * MOST_RUNS + 3;
/// The most blocks up to the periods' least common multiple in a plan of shares.
pub const MOST_SHARE_BLOCKS: u32 = 4_096;
/// The most entries that the allotments of a plan of shares have.
pub const MOST_ALLOTMENTS: usize = MOST_SHARE_BLOCKS as usize * MOST_DUTIES;
