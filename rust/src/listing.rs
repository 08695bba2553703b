//! What an accepted table holds, as lists.

use crate::calls::{self, STATE};
use crate::{Chain, Duty, Row, Run};

/// Duties and runs of an accepted table, record by record: a kind, then the fields that it has, little-endian. The
/// judge has looked at the order, so the first record of another kind is the last one, which counts the runs.
pub fn duties_and_runs(table: &[u8]) -> (Vec<Duty>, Vec<Run>) {
    let (mut duties, mut runs) = (Vec::new(), Vec::new());
    let mut rest = table;
    loop {
        rest = match *rest {
            // block length, engines, duties
            [1, _, _, _, _, _, _, ref rest @ ..] => rest,
            [2, a, b, c, d, e, f, g, h, ref rest @ ..] => {
                duties.push(Duty { service: number([a, b, c, d]), period: number([e, f, g, h]) });
                rest
            }
            [3, row, duty, a, b, c, d, e, f, g, h, ref rest @ ..] => {
                let (first, length) = (number([a, b, c, d]), number([e, f, g, h]));
                runs.push(Run { row: Row(row.into()), duty: duty.into(), first, length });
                rest
            }
            _ => return (duties, runs),
        }
    }
}

fn number(bytes: [u8; 4]) -> u32 {
    u32::from_le_bytes(bytes)
}

/// The chains, read off the dispatcher's state for block 1. In block 0 engine i runs row i. In block 1 an engine has
/// the row numbered one higher, but the last of a chain has the chain's first row: so where the row's number is not
/// above the engine's, a chain ends, and the row is its first.
pub fn chains(state: &[u64; STATE], engines: u32) -> Vec<Chain> {
    let rows = state[1..].iter().map(|&entry| calls::small(entry));
    let ends = (0..engines).zip(rows).filter(|&(last, first)| first <= last);
    ends.map(|(last, first)| Chain { first: Row(first), length: last - first + 1 }).collect()
}
