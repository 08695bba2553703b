// A simulator's use of Tickplume in C++: build a plan, dispatch a few blocks, ask who runs when, count the loads. Prints what it finds.
//
//     c++ -Iinclude examples/simulator.cpp -Ltarget/native -ltickplume -o simulator
#include <iostream>
#include <vector>

#include "tickplume.hpp"

using tickplume::Dispatcher;
using tickplume::Engine;
using tickplume::Refusal;
using tickplume::Reply;
using tickplume::Row;
using tickplume::Table;

// Which row each engine has, block after block.
static void dispatch(const Table &table) {
    Dispatcher dispatcher = table.dispatcher(0);
    for (int block = 0; block < 4; block++) {
        std::cout << "block " << dispatcher.block() << ':';
        for (std::uint32_t engine = 0; engine < table.reading().engines; engine++)
            std::cout << " engine " << engine << " has row " << dispatcher.row(Engine(engine)).number();
        std::cout << '\n';
        dispatcher.next();
    }
}

// What each engine does, tick after tick.
static void ask(const Table &table) {
    for (std::uint32_t engine = 0; engine < table.reading().engines; engine++) {
        std::cout << "engine " << engine << ':';
        for (std::uint64_t tick = 0; tick < 12; tick++) {
            const Reply reply = table.at(Engine(engine), tick);
            if (reply.idle())
                std::cout << " -";
            else
                std::cout << ' ' << reply.duty();
        }
        std::cout << '\n';
    }
}

// The same for a simulator that needs every engine at every tick: the rows once a block, then the runs of each engine's row. Only the start
// of a block judges the table. The direct question in the innermost loop is there to show that it agrees, and may be left out.
static void run_blocks(const Table &table) {
    const std::vector<tickplume::Run> runs = table.runs();
    for (std::uint64_t block = 0; block < 3; block++) {
        const std::vector<Row> rows = table.dispatcher(block).rows();
        for (const Engine engine : table.engines()) {
            for (const tickplume::Run &run : runs) {
                if (run.row != rows[engine.number()]) continue;
                const std::uint64_t first = block * table.reading().block_length + run.first;
                for (std::uint64_t tick = first; tick < first + run.length; tick++)
                    if (table.at(engine, tick).duty() != run.duty) std::cout << "another duty\n";
            }
        }
    }
}

// A call that is refused: its number and place, and on std::cerr what they mean.
template <class Call>
static void refused(const char *name, Call call) {
    try {
        call();
    } catch (const Refusal &refusal) {
        std::cout << name << " refused " << refusal.number() << ' ' << refusal.place() << '\n';
        std::cerr << name << ' ' << refusal.what() << '\n';
    }
}

int main() {
    try {
        // Four duties of 3 ticks in every 4, on three engines. Two of them are split over two rows, so the rows go round all engines.
        const Table table = Table::build(3, {{3, 4}, {3, 4}, {3, 4}, {3, 4}});
        const tickplume::Reading reading = table.reading();
        std::cout << "block length " << reading.block_length << ", engines " << reading.engines;
        std::cout << ", duties " << reading.duties << ", runs " << reading.runs << '\n';
        dispatch(table);
        ask(table);
        run_blocks(table);
        std::cout << "loads in " << TICKPLUME_MOST_BLOCKS << " blocks: " << table.loads(TICKPLUME_MOST_BLOCKS) << '\n';

        // Rows that are not those of their block are refused, and so is an engine that is not there.
        std::vector<Row> rows = table.dispatcher(4).rows();
        rows[0] = Row(rows[0].number() + 1);
        refused("row", [&] { Dispatcher::from_parts(table, 4, rows).row(Engine(0)); });
        refused("question", [&] { table.at(Engine(3), 0); });
    } catch (const Refusal &refusal) {
        std::cerr << refusal.what() << '\n';
        return 1;
    }
    return 0;
}
