//! A simulator's use of Tickplume: build a plan, dispatch a few blocks, ask who runs when, count the loads. It prints
//! the same as the repository's `examples/simulator.c`, which is stored in tests/expected/simulator.
//!
//!     cargo run --release --example simulator

use tickplume::{Dispatcher, Duty, Engine, Held, Refusal, Row, Table};

fn main() -> Result<(), Refusal> {
    // Four duties of 3 ticks in every 4, on three engines: one chain of three rows.
    // 0: the longest blocks that there are, here of 4 ticks, the periods' greatest common divisor.
    let table = Table::build(3, &[Duty { service: 3, period: 4 }; 4], 0)?;
    println!("{}", table.reading());

    // Which row does each engine run in a block? One call for all engines.
    for block in 0..4 {
        print!("block {block}:");
        for (engine, row) in table.rows_in(block)? {
            print!(" {engine} has {row}");
        }
        println!();
    }

    // What does an engine do at a tick? The library finds the engine's row in the tick's block.
    for engine in table.engines() {
        print!("{engine}:");
        for tick in 0..12 {
            match table.at(engine, tick)?.held {
                Held::Duty(duty) => print!(" {duty}"),
                Held::Idle => print!(" -"),
            }
        }
        println!();
    }

    // The same for a simulator that needs every engine at every tick: the rows once a block, then the runs of each
    // engine's row. Only the start of a block judges the table. The direct question in the innermost loop is there to
    // show that it agrees, and may be left out.
    let length = u64::from(table.block_length());
    for block in 0..3 {
        for (engine, row) in table.rows_in(block)? {
            for run in table.runs().iter().filter(|run| run.row == row) {
                for unit in run.units() {
                    let tick = block * length + u64::from(unit);
                    assert_eq!(table.at(engine, tick)?.held, Held::Duty(run.duty));
                }
            }
        }
    }

    let blocks = 1_000_000_000_000;
    println!("loads in {blocks} blocks: {}", table.loads(blocks)?);

    // A state that is not the one for its block is refused, and so is an engine that is not there.
    let wrong = Dispatcher::from_parts(4, [Row(0); 32]);
    say_refused("row", wrong.row(&table, Engine(0)));
    say_refused("question", table.at(Engine(3), 0));
    Ok(())
}

fn say_refused<T>(call: &str, result: Result<T, Refusal>) {
    if let Err(refusal) = result {
        println!("{call} refused {} {}", refusal.number, refusal.place);
    }
}
