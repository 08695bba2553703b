//! The library's calls as safe functions, one for each, over any bytes: whatever arrives is judged first.

use crate::{ffi, Duty, Engine, Held, Reading, Refusal, Reply, Row, ShareReading, MOST_ENGINES};

/// The entries of a dispatcher's state: the block, then the row of each of 32 engines.
pub const STATE: usize = 1 + MOST_ENGINES;

/// The mark for an idle engine.
const IDLE: u64 = u64::MAX;

/// A returned word as a result.
fn told<A>(word: u64, answer: A) -> Result<A, Refusal> {
    if word == 0 {
        Ok(answer)
    } else {
        Err(Refusal::from_word(word))
    }
}

/// An answered entry as a duty or idle.
fn held(entry: u64) -> Held {
    if entry == IDLE {
        Held::Idle
    } else {
        Held::Duty(small(entry))
    }
}

/// An answered entry that is a row, a duty, a length or a number of one of these: at most 1,000,000. No number is cut:
/// one above 2^32 - 1 would be taken for 2^32 - 1.
pub(crate) fn small(entry: u64) -> u32 {
    u32::try_from(entry).unwrap_or(u32::MAX)
}

/// An answered entry that is a length of something lent, so that it fits.
pub(crate) fn length(entry: u64) -> usize {
    usize::try_from(entry).unwrap_or(usize::MAX)
}

/// Builds the plan of `services` and `periods`, in blocks of `block_length` ticks, into `table` and answers its length
/// in bytes. 0 asks for blocks of the periods' greatest common divisor. The bytes past the table stay; a refusal (1 to
/// 5, 24, 6 to 8) leaves every byte as it was.
///
/// ```
/// let mut table = [0xaa; 40];
/// assert_eq!(tickplume::calls::build(1, &[1], &[1], 0, &mut table)?, 30);
/// assert_eq!(table[..7], [1, 1, 0, 0, 0, 1, 1]);
/// assert_eq!(table[30], 0xaa);
/// # Ok::<(), tickplume::Refusal>(())
/// ```
pub fn build(
    engines: u32,
    services: &[u32],
    periods: &[u32],
    block_length: u32,
    table: &mut [u8],
) -> Result<usize, Refusal> {
    let mut answer = [0u64; 1];
    // SAFETY: here and below every pointer comes from a slice and goes with that slice's length, so it is not null,
    // aligned and valid for so many entries. What the function writes to comes from a `&mut`, so that it overlaps
    // nothing else. The proved function reads and writes only inside, and keeps no pointer.
    let word = unsafe {
        ffi::tickplume_build(
            engines,
            services.as_ptr(),
            services.len(),
            periods.as_ptr(),
            periods.len(),
            block_length,
            table.as_mut_ptr(),
            table.len(),
            answer.as_mut_ptr(),
            answer.len(),
        )
    };
    told(word, length(answer[0]))
}

/// Judges any bytes: the reading of an accepted table, or the fault (10 to 17).
///
/// ```
/// let refusal = tickplume::calls::judge(&[1, 2, 3]).unwrap_err();
/// assert_eq!((refusal.number, refusal.place), (10, 0));
/// ```
pub fn judge(table: &[u8]) -> Result<Reading, Refusal> {
    let mut answer = [0u64; 4];
    // SAFETY: see `build`.
    let word = unsafe { ffi::tickplume_judge(table.as_ptr(), table.len(), answer.as_mut_ptr(), answer.len()) };
    let [block_length, engines, duties, runs] = answer.map(small);
    told(word, Reading { block_length, engines, duties, runs })
}

/// The direct question: the duty that the engine runs at the tick, or idle, with its row. Refusals 10 to 17, then 18.
pub fn question(table: &[u8], engine: Engine, tick: u64) -> Result<Reply, Refusal> {
    let mut answer = [0u64; 2];
    // SAFETY: see `build`.
    let word = unsafe {
        ffi::tickplume_question(table.as_ptr(), table.len(), engine.0, tick, answer.as_mut_ptr(), answer.len())
    };
    told(word, Reply { held: held(answer[1]), row: Row(small(answer[0])) })
}

/// The dispatcher's state for a block. Refusals 10 to 17.
pub fn start(table: &[u8], block: u64) -> Result<[u64; STATE], Refusal> {
    let mut state = [0u64; STATE];
    // SAFETY: see `build`.
    let word = unsafe { ffi::tickplume_start(table.as_ptr(), table.len(), block, state.as_mut_ptr(), state.len()) };
    told(word, state)
}

/// The row of an engine in the state's block. Refusals 10 to 17, then 18, then 20.
pub fn row(table: &[u8], state: &[u64; STATE], engine: Engine) -> Result<Row, Refusal> {
    let mut answer = [0u64; 1];
    // SAFETY: see `build`.
    let word = unsafe {
        ffi::tickplume_row(
            table.as_ptr(),
            table.len(),
            state.as_ptr(),
            state.len(),
            engine.0,
            answer.as_mut_ptr(),
            answer.len(),
        )
    };
    told(word, Row(small(answer[0])))
}

/// The state of the next block, in the place of this one. Refusals 10 to 17, then 20, then 21; they leave the state.
pub fn next(table: &[u8], state: &mut [u64; STATE]) -> Result<(), Refusal> {
    // SAFETY: see `build`.
    let word = unsafe { ffi::tickplume_next(table.as_ptr(), table.len(), state.as_mut_ptr(), state.len()) };
    told(word, ())
}

/// The loads of the first `blocks` blocks. Refusals 10 to 17, then 19.
pub fn count(table: &[u8], blocks: u64) -> Result<u64, Refusal> {
    let mut answer = [0u64; 1];
    // SAFETY: see `build`.
    let word = unsafe { ffi::tickplume_count(table.as_ptr(), table.len(), blocks, answer.as_mut_ptr(), answer.len()) };
    told(word, answer[0])
}

/// SA2's allotments of `services` and `periods`, block by block up to the periods' least common multiple, within a
/// block duty by duty. The entries past the last stay; a refusal (1 to 5, 22, 7, 8, 23) leaves every entry as it was.
/// Where none are lent, the place of 8 is how many are needed.
///
/// ```
/// // 1 tick in every 2 and 1 in every 4, on one engine: blocks of 2 ticks, a whole unit and half a unit
/// let mut allotments = [9; 5];
/// let reading = tickplume::calls::shares(1, &[1, 1], &[2, 4], &mut allotments)?;
/// assert_eq!((reading.entries, reading.block_length, reading.blocks), (4, 2, 2));
/// assert_eq!(allotments, [1, 1, 1, 0, 9]);
/// # Ok::<(), tickplume::Refusal>(())
/// ```
pub fn shares(
    engines: u32,
    services: &[u32],
    periods: &[u32],
    allotments: &mut [u32],
) -> Result<ShareReading, Refusal> {
    let mut answer = [0u64; 3];
    // SAFETY: see `build`.
    let word = unsafe {
        ffi::tickplume_shares(
            engines,
            services.as_ptr(),
            services.len(),
            periods.as_ptr(),
            periods.len(),
            allotments.as_mut_ptr(),
            allotments.len(),
            answer.as_mut_ptr(),
            answer.len(),
        )
    };
    let [entries, block_length, blocks] = answer;
    let reading = ShareReading { entries: length(entries), block_length: small(block_length), blocks: small(blocks) };
    told(word, reading)
}

/// What the engine does at the tick in the plan of shares: engine i keeps row i, so there is no row to tell. Refusals 1
/// to 5, 22, 7, 23, then 18.
pub fn share_at(engines: u32, services: &[u32], periods: &[u32], engine: Engine, tick: u64) -> Result<Held, Refusal> {
    let mut answer = [0u64; 1];
    // SAFETY: see `build`.
    let word = unsafe {
        ffi::tickplume_share_at(
            engines,
            services.as_ptr(),
            services.len(),
            periods.as_ptr(),
            periods.len(),
            engine.0,
            tick,
            answer.as_mut_ptr(),
            answer.len(),
        )
    };
    told(word, held(answer[0]))
}

/// The two lists that the builders take.
#[must_use]
pub fn lists(duties: &[Duty]) -> (Vec<u32>, Vec<u32>) {
    duties.iter().map(|x| (x.service, x.period)).unzip()
}
