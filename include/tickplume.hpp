// Tickplume for C++11 and later: block plans for packet engines, proved down to the byte. Header only, over tickplume.h and its library.
//
// A plan serves periodic duties on up to 32 engines. It is made for one block of ticks; its rows move from engine to engine at each block.
// A row is a line of the plan, an engine is the hardware: Row and Engine are types that nothing turns into one another, nor into a number
// but for .number().
//
//     const tickplume::Table table = tickplume::Table::build(2, {{2, 3}, {2, 3}, {2, 3}});   // 2 engines; 2 ticks in every 3, three times
//     const tickplume::Reply reply = table.at(tickplume::Engine(0), 5);
//     if (!reply.idle()) std::cout << "duty " << reply.duty() << " from row " << reply.row().number() << '\n';
//
// What a call refuses is thrown as a Refusal, and everything stays as it was; the numbers in the comments below are those of tickplume.h,
// which has their meanings. Every type is a value: it holds what it needs and may be copied, moved and kept. Threads may share an object as
// long as none changes it. Where exceptions are switched off, use tickplume.h.
#ifndef TICKPLUME_HPP
#define TICKPLUME_HPP

#include "tickplume.h"

#include <algorithm>
#include <cstddef>
#include <cstdint>
#include <functional>
#include <initializer_list>
#include <stdexcept>
#include <string>
#include <utility>
#include <vector>

namespace tickplume {

// For this header alone: a number of one kind, which compares with its own kind and is no other's.
namespace inner {

template <class Kind>
class Numbered {
public:
    explicit constexpr Numbered(std::uint32_t number) noexcept : number_(number) {}
    constexpr std::uint32_t number() const noexcept { return number_; }
    friend constexpr bool operator==(Numbered a, Numbered b) noexcept { return a.number_ == b.number_; }
    friend constexpr bool operator!=(Numbered a, Numbered b) noexcept { return a.number_ != b.number_; }
    friend constexpr bool operator<(Numbered a, Numbered b) noexcept { return a.number_ < b.number_; }
    friend constexpr bool operator<=(Numbered a, Numbered b) noexcept { return a.number_ <= b.number_; }
    friend constexpr bool operator>(Numbered a, Numbered b) noexcept { return a.number_ > b.number_; }
    friend constexpr bool operator>=(Numbered a, Numbered b) noexcept { return a.number_ >= b.number_; }

private:
    std::uint32_t number_;
};

} // namespace inner

// A packet engine, the hardware; they count from 0.
class Engine : public inner::Numbered<Engine> {
public:
    using Numbered::Numbered;
};

// A line of the plan for one block; they count from 0. Which engine runs it changes from block to block.
class Row : public inner::Numbered<Row> {
public:
    using Numbered::Numbered;
};

// A duty: `service` ticks in each period of `period` ticks.
struct Duty {
    std::uint32_t service, period;
};

constexpr bool operator==(Duty a, Duty b) noexcept { return a.service == b.service && a.period == b.period; }
constexpr bool operator!=(Duty a, Duty b) noexcept { return !(a == b); }

// What a judge reads off an accepted table: ticks in a block, engines (and rows), duties, runs.
struct Reading {
    std::uint32_t block_length, engines, duties, runs;
};

constexpr bool operator==(const Reading &a, const Reading &b) noexcept {
    return a.block_length == b.block_length && a.engines == b.engines && a.duties == b.duties && a.runs == b.runs;
}
constexpr bool operator!=(const Reading &a, const Reading &b) noexcept { return !(a == b); }

// A stretch of units on one row, given to one duty.
struct Run {
    Row row;
    std::uint32_t duty, first, length;
};

constexpr bool operator==(const Run &a, const Run &b) noexcept {
    return a.row == b.row && a.duty == b.duty && a.first == b.first && a.length == b.length;
}
constexpr bool operator!=(const Run &a, const Run &b) noexcept { return !(a == b); }

// Rows that move together: from block to block the engines of a chain pass its rows on. A row alone is a chain of length 1 and stays.
struct Chain {
    Row first;
    std::uint32_t length;
};

constexpr bool operator==(const Chain &a, const Chain &b) noexcept { return a.first == b.first && a.length == b.length; }
constexpr bool operator!=(const Chain &a, const Chain &b) noexcept { return !(a == b); }

// What an engine does at a tick: nothing, or the duty of a number.
class Held {
public:
    // Takes TICKPLUME_NONE for idle, as the calls of tickplume.h answer it.
    explicit constexpr Held(std::uint32_t duty) noexcept : duty_(duty) {}
    constexpr bool idle() const noexcept { return duty_ == TICKPLUME_NONE; }

    // The duty's number. To ask an idle engine for it is a fault of the program: std::logic_error.
    std::uint32_t duty() const {
        if (idle()) throw std::logic_error("tickplume: the engine is idle, there is no duty");
        return duty_;
    }
    friend constexpr bool operator==(Held a, Held b) noexcept { return a.duty_ == b.duty_; }
    friend constexpr bool operator!=(Held a, Held b) noexcept { return a.duty_ != b.duty_; }

private:
    std::uint32_t duty_;
};

// What an engine does at a tick, and from which row.
class Reply {
public:
    constexpr Reply(Held held, Row row) noexcept : held_(held), row_(row) {}
    constexpr Held held() const noexcept { return held_; }
    constexpr bool idle() const noexcept { return held_.idle(); }
    std::uint32_t duty() const { return held_.duty(); } // std::logic_error where idle
    constexpr Row row() const noexcept { return row_; }
    friend constexpr bool operator==(Reply a, Reply b) noexcept { return a.held_ == b.held_ && a.row_ == b.row_; }
    friend constexpr bool operator!=(Reply a, Reply b) noexcept { return !(a == b); }

private:
    Held held_;
    Row row_;
};

// Why a call was refused. TICKPLUME_REFUSED_OVERLOAD and so on are its kinds.
using Kind = ::tickplume_kind_t;

// what() tells it in words: "refused 6: a duty's share of a block is not a whole number of ticks (duty 0)".
class Refusal : public std::runtime_error {
public:
    explicit Refusal(tickplume_refusal_t refusal) : std::runtime_error(sentence(refusal)), refusal_(refusal) {}
    Kind kind() const noexcept { return refusal_.kind; }
    unsigned number() const noexcept { return static_cast<unsigned>(refusal_.kind); }

    // A duty, a run, a block, an offset in bytes, or what is needed, as place_is() says; 0 where no place is named.
    std::uint64_t place() const noexcept { return refusal_.place; }
    const char *place_is() const noexcept { return tickplume_place_is(refusal_.kind); }
    const char *meaning() const noexcept { return tickplume_meaning(refusal_.kind); }

private:
    static std::string sentence(tickplume_refusal_t refusal) {
        const std::string place = tickplume_place_is(refusal.kind);
        std::string text = "refused " + std::to_string(static_cast<unsigned>(refusal.kind)) + ": " + tickplume_meaning(refusal.kind);
        if (!place.empty()) text += " (" + place + " " + std::to_string(refusal.place) + ")";
        return text;
    }
    tickplume_refusal_t refusal_;
};

// For this header alone.
namespace inner {

inline void answered(tickplume_refusal_t refusal) {
    if (refusal.kind != TICKPLUME_NOT_REFUSED) throw Refusal(refusal);
}

// The first duties as C has them: all that a call looks at, since a list of more than 64 is refused by its length.
inline std::vector<tickplume_duty_t> duties_of(const Duty *duties, std::size_t length) {
    const std::size_t taken = duties ? std::min<std::size_t>(length, TICKPLUME_MOST_DUTIES + 1) : 0;
    std::vector<tickplume_duty_t> list(taken);
    for (std::size_t i = 0; i < taken; i++) {
        list[i].service = duties[i].service;
        list[i].period = duties[i].period;
    }
    return list;
}

inline tickplume_table_t lent(const std::vector<std::uint8_t> &bytes) noexcept { return tickplume_table_t{bytes.data(), bytes.size()}; }

inline tickplume_engine_t engine(Engine engine) noexcept { return tickplume_engine(engine.number()); }

inline Reading judged(tickplume_table_t table) {
    const tickplume_reading_t reading = tickplume_table_judge(table);
    answered(reading.refusal);
    return Reading{reading.block_length, reading.engines, reading.duties, reading.runs};
}

} // namespace inner

class Table;

// Which row each engine runs in a block. It holds a copy of its table (at most 1,994 bytes), so it may outlive it.
class Dispatcher {
public:
    // A state made by hand: a block, and the row of each engine from engine 0 on. Whether it is the one for its block is looked at by each
    // call. std::length_error where there are more than 32 rows.
    static Dispatcher from_parts(const Table &table, std::uint64_t block, const std::vector<Row> &rows);

    std::uint64_t block() const noexcept { return tickplume_dispatcher_block(&dispatcher_); }

    // The row that the engine runs in this block. Refusals: 18, and 20 for a state made by hand.
    Row row(Engine engine) const {
        const tickplume_row_reply_t reply = tickplume_dispatcher_row(&dispatcher_, inner::lent(bytes_), inner::engine(engine));
        inner::answered(reply.refusal);
        return Row(reply.row.number);
    }

    // The row of each engine: that of Engine(e) is rows()[e]. One call for a whole block, which judges nothing.
    std::vector<Row> rows() const {
        std::vector<Row> rows;
        for (std::uint32_t e = 1; e <= engines_; e++) rows.push_back(Row(static_cast<std::uint32_t>(dispatcher_.state[e])));
        return rows;
    }

    // Goes on to the next block. Refusals: 21 at block 2^64 - 1, and 20 for a state made by hand.
    void next() { inner::answered(tickplume_dispatcher_next(&dispatcher_, inner::lent(bytes_))); }

private:
    friend class Table;
    Dispatcher(const std::vector<std::uint8_t> &bytes, std::uint32_t engines) : bytes_(bytes), engines_(engines), dispatcher_() {}
    std::vector<std::uint8_t> bytes_;
    std::uint32_t engines_;
    tickplume_dispatcher_t dispatcher_;
};

// An accepted table. at(), loads() and dispatcher() judge its bytes anew each time; the lists are only read off them.
class Table {
public:
    // The plan that SA1 makes of the duties, on so many engines, in blocks of `block_length` ticks. That has to divide every period; 0 asks
    // for the greatest common divisor of the periods. Refusals: 1, 3 to 5, 24, 6, 7, in this order.
    static Table build(std::uint32_t engines, const Duty *duties, std::size_t length, std::uint32_t block_length = 0) {
        const std::vector<tickplume_duty_t> list = inner::duties_of(duties, length);
        std::vector<std::uint8_t> bytes(TICKPLUME_MOST_BYTES);
        const tickplume_built_t built =
            tickplume_table_build(engines, list.data(), list.size(), block_length, bytes.data(), bytes.size());
        inner::answered(built.refusal);
        return from_bytes(bytes.data(), built.table.length);
    }
    static Table build(std::uint32_t engines, const std::vector<Duty> &duties, std::uint32_t block_length = 0) {
        return build(engines, duties.data(), duties.size(), block_length);
    }
    static Table build(std::uint32_t engines, std::initializer_list<Duty> duties, std::uint32_t block_length = 0) {
        return build(engines, duties.begin(), duties.size(), block_length);
    }

    // A table that anybody wrote, judged. Refusals: 10 to 17.
    static Table from_bytes(std::vector<std::uint8_t> bytes) {
        const Reading reading = inner::judged(inner::lent(bytes));
        return Table(std::move(bytes), reading);
    }
    static Table from_bytes(const std::uint8_t *bytes, std::size_t length) {
        const Reading reading = inner::judged(tickplume_table_t{bytes, length});
        return Table(std::vector<std::uint8_t>(bytes, bytes + length), reading);
    }

    const std::vector<std::uint8_t> &bytes() const noexcept { return bytes_; }
    Reading reading() const noexcept { return reading_; }

    // What stands in the table: the engines and the duties by number, the runs by row and then by first unit.
    std::vector<Engine> engines() const {
        std::vector<Engine> engines;
        for (std::uint32_t e = 0; e < reading_.engines; e++) engines.push_back(Engine(e));
        return engines;
    }
    std::vector<Duty> duties() const {
        std::vector<Duty> duties;
        for (std::uint32_t i = 0; i < reading_.duties; i++) {
            const tickplume_duty_t duty = tickplume_table_duty(inner::lent(bytes_), i);
            duties.push_back(Duty{duty.service, duty.period});
        }
        return duties;
    }
    std::vector<Run> runs() const {
        std::vector<Run> runs;
        for (std::uint32_t k = 0; k < reading_.runs; k++) {
            const tickplume_run_t run = tickplume_table_run(inner::lent(bytes_), k);
            runs.push_back(Run{Row(run.row.number), run.duty, run.first, run.length});
        }
        return runs;
    }

    // The chains, by first row; each row is in one of them. They are read off the rows in block 1: inside a chain an engine has the row
    // numbered one higher, and its last engine has its first row.
    std::vector<Chain> chains() const {
        std::vector<Chain> chains;
        const std::vector<Row> rows = dispatcher(1).rows();
        for (std::uint32_t e = 0; e < rows.size(); e++)
            if (rows[e].number() <= e) chains.push_back(Chain{rows[e], e - rows[e].number() + 1});
        return chains;
    }

    // What does the engine do at the tick, and from which row? Any tick. Refusal: 18.
    Reply at(Engine engine, std::uint64_t tick) const {
        const tickplume_reply_t reply = tickplume_table_at(inner::lent(bytes_), inner::engine(engine), tick);
        inner::answered(reply.refusal);
        return Reply(Held(reply.duty), Row(reply.row.number));
    }

    // The loads of the first blocks: how often an engine begins to run a duty that it did not run one tick before. Refusal: 19.
    std::uint64_t loads(std::uint64_t blocks) const {
        const tickplume_loads_t loads = tickplume_table_loads(inner::lent(bytes_), blocks);
        inner::answered(loads.refusal);
        return loads.loads;
    }

    // A dispatcher that starts at a block. Any block.
    Dispatcher dispatcher(std::uint64_t block = 0) const {
        Dispatcher dispatcher(bytes_, reading_.engines);
        inner::answered(tickplume_dispatcher_start(&dispatcher.dispatcher_, inner::lent(bytes_), block));
        return dispatcher;
    }

    friend bool operator==(const Table &a, const Table &b) noexcept { return a.bytes_ == b.bytes_; }
    friend bool operator!=(const Table &a, const Table &b) noexcept { return a.bytes_ != b.bytes_; }

private:
    Table(std::vector<std::uint8_t> bytes, Reading reading) noexcept : bytes_(std::move(bytes)), reading_(reading) {}
    std::vector<std::uint8_t> bytes_;
    Reading reading_;
};

inline Dispatcher Dispatcher::from_parts(const Table &table, std::uint64_t block, const std::vector<Row> &rows) {
    Dispatcher dispatcher(table.bytes(), table.reading().engines);
    if (rows.size() > TICKPLUME_MOST_ENGINES) throw std::length_error("tickplume: a dispatcher has at most 32 rows");
    dispatcher.dispatcher_.state[0] = block;
    for (std::size_t e = 0; e < rows.size(); e++) dispatcher.dispatcher_.state[1 + e] = rows[e].number();
    return dispatcher;
}

// A plan of shares: SA2's plan of duties whose share of a block need not be whole. A duty gets other numbers of units from block to block;
// nothing rotates, engine i keeps row i.
class Shares {
public:
    // The plan that SA2 makes of the duties, on so many engines. Refusals: 1, 3 to 5, 22, 7, 23, in this order.
    static Shares build(std::uint32_t engines, const Duty *duties, std::size_t length) {
        const std::vector<tickplume_duty_t> list = inner::duties_of(duties, length);
        const tickplume_refusal_t none = tickplume_shares_build(engines, list.data(), list.size(), nullptr, 0).refusal;
        if (none.kind != TICKPLUME_REFUSED_NO_ROOM) inner::answered(none); // otherwise its place is the entries that are needed
        std::vector<std::uint32_t> allotments(static_cast<std::size_t>(none.place));
        const tickplume_shares_t told = tickplume_shares_build(engines, list.data(), list.size(), allotments.data(), allotments.size());
        inner::answered(told.refusal);
        return Shares(engines, std::vector<Duty>(duties, duties + length), std::move(allotments), told);
    }
    static Shares build(std::uint32_t engines, const std::vector<Duty> &duties) { return build(engines, duties.data(), duties.size()); }
    static Shares build(std::uint32_t engines, std::initializer_list<Duty> duties) { return build(engines, duties.begin(), duties.size()); }

    std::uint32_t engines() const noexcept { return engines_; }
    const std::vector<Duty> &duties() const noexcept { return duties_; }
    std::uint32_t block_length() const noexcept { return block_length_; }

    // Blocks until the plan goes on from the first again.
    std::uint32_t blocks() const noexcept { return blocks_; }

    // How many units each duty has in a block. Any block: after the last come the first again.
    std::vector<std::uint32_t> allotted(std::uint64_t block) const {
        const std::size_t duties = duties_.size(), first = static_cast<std::size_t>(block % blocks_) * duties;
        const std::uint32_t *const from = allotments_.data() + first;
        return std::vector<std::uint32_t>(from, from + duties);
    }

    // What does the engine do at the tick? Any tick. Refusal: 18. The library works the plan out from the duties again, so this takes the
    // time of going through all blocks, whatever the tick.
    Held at(Engine engine, std::uint64_t tick) const {
        const std::vector<tickplume_duty_t> list = inner::duties_of(duties_.data(), duties_.size());
        const tickplume_share_reply_t reply = tickplume_shares_at(engines_, list.data(), list.size(), inner::engine(engine), tick);
        inner::answered(reply.refusal);
        return Held(reply.duty);
    }

    // The engines and the duties settle the rest.
    friend bool operator==(const Shares &a, const Shares &b) noexcept { return a.engines_ == b.engines_ && a.duties_ == b.duties_; }
    friend bool operator!=(const Shares &a, const Shares &b) noexcept { return !(a == b); }

private:
    Shares(std::uint32_t engines, std::vector<Duty> duties, std::vector<std::uint32_t> allotments, tickplume_shares_t told) noexcept
        : engines_(engines), block_length_(told.block_length), blocks_(told.blocks), duties_(std::move(duties)),
          allotments_(std::move(allotments)) {}
    std::uint32_t engines_, block_length_, blocks_;
    std::vector<Duty> duties_;
    std::vector<std::uint32_t> allotments_;
};

} // namespace tickplume

namespace std {

template <>
struct hash<tickplume::Engine> {
    size_t operator()(tickplume::Engine engine) const noexcept { return hash<uint32_t>()(engine.number()); }
};

template <>
struct hash<tickplume::Row> {
    size_t operator()(tickplume::Row row) const noexcept { return hash<uint32_t>()(row.number()); }
};

} // namespace std

#endif
