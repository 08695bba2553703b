//! What a table lists and prints: beside the plan program's stored outputs, and beside the planner written apart on
//! random tables.

#[allow(dead_code)]
#[path = "../apart/filler.rs"]
mod filler;
#[path = "../apart/random.rs"]
mod random;
#[allow(dead_code)]
#[path = "../apart/sets.rs"]
mod sets;

use filler::{Lengths, Turn, Walk};
use random::Random;
use std::collections::BTreeSet;
use std::fmt::Display;
use tickplume::{
    Chain, Dispatcher, Duty, Engine, Held, Reading, Refusal, RefusalKind, Reply, Row, Run, ShareReading, Shares, Table,
};

/// A file of the repository.
fn file(path: &str) -> String {
    let path = format!("{}/../{path}", env!("CARGO_MANIFEST_DIR"));
    std::fs::read_to_string(&path).unwrap_or_else(|error| panic!("{path}: {error}"))
}

/// The plan of a set as the plan program reads it: the engines, then a duty in each line.
fn planned(set: &str) -> Table {
    let text = file(set);
    let mut lines = text.lines().map(|line| line.split(' ').map(|word| word.parse().expect("a number")));
    let engines = lines.next().and_then(|mut words| words.next()).expect("engines");
    let duties: Vec<Duty> = lines
        .map(|mut words| Duty { service: words.next().expect("a service"), period: words.next().expect("a period") })
        .collect();
    Table::build(engines, &duties, 0).unwrap_or_else(|refusal| panic!("{set}: {refusal}"))
}

#[test]
fn a_table_prints_what_the_plan_program_prints() {
    for set in ["p1", "p8", "full-32-engines"] {
        let table = planned(&format!("examples/{set}"));
        assert_eq!(format!("{table}\n"), file(&format!("tests/expected/plan-{set}")), "{set}");
    }
}

/// The chains' first rows and lengths, from the lengths.
fn chains(lengths: &[usize]) -> Vec<Chain> {
    let mut next = 0;
    let mut chain = |&length: &usize| {
        let first = Row(next);
        next += length as u32;
        Chain { first, length: length as u32 }
    };
    lengths.iter().map(&mut chain).collect()
}

/// One accepted table beside the block that the planner written apart fills from its bytes.
fn same_lists(table: &Table, block: &filler::Block) {
    let duties = block.duties.iter().map(|&(service, period)| (service as u32, period as u32));
    assert!(table.duties().iter().map(|duty| (duty.service, duty.period)).eq(duties), "duties of {table:?}");
    let runs = filler::runs(block).into_iter().map(|(row, duty, first, length)| Run {
        row: Row(row as u32),
        duty: duty as u32,
        first: first as u32,
        length: length as u32,
    });
    assert!(table.runs().iter().copied().eq(runs), "runs of {table:?}");
    assert_eq!(table.chains(), chains(&filler::chains(block)), "chains of {table:?}");
    assert_eq!(u64::from(table.block_length()), block.ticks);
    assert!(table.engines().eq((0..block.rows.len() as u32).map(Engine)));
    assert!(table.rows().eq((0..block.rows.len() as u32).map(Row)));
    let Reading { engines, duties, runs, .. } = table.reading();
    let listed = (table.engines().len(), table.duties().len(), table.runs().len());
    assert_eq!(listed, (engines as usize, duties as usize, runs as usize));
}

/// The first blocks' rows beside the walk.
fn same_rows(table: &Table, block: &filler::Block) {
    let mut walk = Walk::new(block, Turn::Published);
    for number in 0..5 {
        let rows = table.rows_in(number).expect("the rows of an accepted table");
        let walked = walk.rows.iter().enumerate().map(|(engine, &row)| (Engine(engine as u32), Row(row as u32)));
        assert!(rows.eq(walked), "rows in block {number} of {table:?}");
        walk.step();
    }
}

#[test]
fn lists_and_rows_are_those_of_the_planner_written_apart() {
    let mut random = Random::new(5);
    let (mut accepted, mut lengths) = (0, BTreeSet::new());
    for k in 0..800 {
        let set = if k % 3 == 0 { sets::whole_set(&mut random, 24) } else { sets::chained_set(&mut random) };
        let sets::Set { engines, services, periods, block_length } = set;
        let built = filler::build(engines.into(), &services, &periods, block_length, usize::MAX, Lengths::Published);
        let Ok(built) = built else { continue };
        for bytes in [sets::patch(&mut random, &built), sets::patch(&mut random, &built), built] {
            let judged = filler::judge(&bytes, Lengths::Published);
            let (Ok(block), Ok(table)) = (judged, Table::try_from(&bytes[..])) else { continue };
            same_lists(&table, &block);
            same_rows(&table, &block);
            accepted += 1;
            lengths.extend(filler::chains(&block));
        }
    }
    assert!(accepted > 600 && lengths.len() > 20, "{accepted} accepted tables, chain lengths {lengths:?}");
}

#[test]
fn bytes_go_in_and_out() {
    let table = planned("examples/p8");
    let bytes = table.as_bytes().to_vec();
    assert_eq!(table.as_ref(), bytes);
    assert_eq!(Table::try_from(&bytes[..]), Ok(table.clone()));
    assert_eq!(Table::try_from(bytes.clone()), Ok(table.clone()));
    assert_eq!(table.into_bytes(), bytes);
    let cut = Table::try_from(&bytes[..bytes.len() - 1]).unwrap_err();
    assert_eq!((cut.kind(), cut.place), (RefusalKind::TableForm, bytes.len() as u64 - 3));
    assert_eq!(Table::try_from(vec![]).unwrap_err().kind(), RefusalKind::TableForm);
}

#[test]
fn the_rows_of_any_block() {
    let table = planned("examples/p8");
    let rows: Vec<Row> = table.rows_in(u64::MAX).expect("the last block").map(|(_, row)| row).collect();
    assert_eq!(rows, [Row(1), Row(0), Row(3), Row(2)]);
    let last = table.dispatcher(u64::MAX).expect("the last block");
    assert_eq!(last.next(&table).unwrap_err().kind(), RefusalKind::LastBlock);
    let by_hand = Dispatcher::from_parts(u64::MAX, last.rows());
    assert_eq!(by_hand, last);
    let mut rows = last.rows();
    rows[0] = Row(u32::MAX);
    let wrong = Dispatcher::from_parts(u64::MAX, rows);
    assert_eq!(wrong.row(&table, Engine(0)).unwrap_err().kind(), RefusalKind::StateNotItsBlocks);
}

#[test]
fn what_is_printed() {
    let same = |printed: &dyn Display, text: &str| assert_eq!(printed.to_string(), text);
    same(&Duty { service: 2, period: 3 }, "2 in every 3");
    same(&Engine(1), "engine 1");
    same(&Row(1), "row 1");
    same(&Held::Duty(2), "duty 2");
    same(&Held::Idle, "idle");
    same(&Reply { held: Held::Duty(2), row: Row(1) }, "duty 2 on row 1");
    same(&Reply { held: Held::Idle, row: Row(1) }, "idle on row 1");
    same(&planned("examples/p1").reading(), "block length 3, engines 2, duties 3, runs 4");
    same(&Run { row: Row(0), duty: 1, first: 2, length: 3 }, "run 0 1 2 3");
    same(&Chain { first: Row(2), length: 5 }, "chain 2 5");
    assert_eq!(format!("{:<8}|{:>6}|{:>5}", Engine(1), Row(1), Held::Idle), "engine 1| row 1| idle");
    same(&ShareReading { entries: 36, block_length: 10, blocks: 6 }, "block length 10, blocks 6, entries 36");
}

/// Runs and chains that no table has are listed without a panic.
#[test]
fn made_up_runs_and_chains() {
    assert_eq!(Run { row: Row(0), duty: 0, first: u32::MAX, length: 2 }.units(), u32::MAX..u32::MAX);
    assert_eq!(Chain { first: Row(u32::MAX), length: 2 }.rows().count(), 0);
    assert_eq!(Chain { first: Row(0), length: 0 }.rows().count(), 0);
}

#[test]
fn everything_can_be_sent_and_shared() {
    fn sent<T: Send + Sync + Clone + 'static>() {}
    sent::<Table>();
    sent::<Dispatcher>();
    sent::<Shares>();
    sent::<Refusal>();
    fn counted<T: Copy + Eq + std::hash::Hash + std::fmt::Debug + Send + Sync>() {}
    counted::<(Duty, Engine, Row, Held, Reply, Reading, Run, Chain, Dispatcher, Refusal, RefusalKind, ShareReading)>();
    fn refused<T: std::error::Error + Send + Sync + 'static>() {}
    refused::<Refusal>();
}
