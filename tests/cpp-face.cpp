// The C++ header: its types are kept apart, its answers and refusals are those of tickplume.h on the same input, an idle reply has no duty,
// and every object may outlive what it was made from. Ends with status 0 exactly when all is so.
#include "tickplume.hpp"
#include "tickplume.hpp" // twice does no harm

#include <cstdio>
#include <cstring>
#include <set>
#include <type_traits>
#include <unordered_set>

using namespace tickplume;

static unsigned long checks, failures;
static std::set<unsigned> met;

#define CHECK(holds) check((holds), #holds, __LINE__)

static void check(bool holds, const char *what, int line) {
    checks++;
    if (holds) return;
    failures++;
    if (failures <= 20) std::printf("line %d: not so: %s\n", line, what);
}

// ---- Types

template <class From, class To>
constexpr bool turns_into() {
    return std::is_convertible<From, To>::value;
}
static_assert(!turns_into<Row, Engine>() && !std::is_constructible<Engine, Row>::value, "a row is no engine");
static_assert(!turns_into<Engine, Row>() && !std::is_constructible<Row, Engine>::value, "an engine is no row");
static_assert(!turns_into<Row, std::uint32_t>() && !turns_into<Engine, std::uint32_t>() && !turns_into<Row, bool>(), "nor a number");
static_assert(!turns_into<std::uint32_t, Engine>() && !turns_into<int, Row>() && !turns_into<int, Held>(), "nor is a number one of them");
static_assert(!std::is_assignable<Engine &, Row>::value && !std::is_assignable<Row &, int>::value, "nor by assignment");
static_assert(!std::is_default_constructible<Engine>::value && !std::is_default_constructible<Table>::value, "none without a number");
static_assert(!std::is_constructible<Table, std::vector<std::uint8_t>>::value, "no table that was not judged");
static_assert(std::is_base_of<std::runtime_error, Refusal>::value, "a refusal is a runtime error");
static_assert(std::is_nothrow_copy_constructible<Refusal>::value, "and may be copied while it is thrown");
static_assert(std::is_nothrow_move_constructible<Table>::value && std::is_copy_constructible<Dispatcher>::value, "values");
static_assert(Engine(3) == Engine(3) && Engine(2) < Engine(3) && Engine(7).number() == 7, "engines compare");
static_assert(Row(3) != Row(4) && Row(4) >= Row(4) && Row(4) <= Row(4) && Row(5) > Row(4) && Row(4) == Row(4), "rows compare");
static_assert(Engine(3) != Engine(4) && Engine(4) >= Engine(4) && Engine(4) <= Engine(5) && Engine(5) > Engine(4), "engines too");

// Whether Left and Right may be compared at all.
template <class Left, class Right, class = void>
struct Compares : std::false_type {};
template <class Left, class Right>
struct Compares<Left, Right, decltype(void(std::declval<Left>() == std::declval<Right>()))> : std::true_type {};
static_assert(Compares<Row, Row>::value && Compares<Engine, Engine>::value, "rows with rows");
static_assert(!Compares<Row, Engine>::value && !Compares<Row, int>::value && !Compares<Engine, unsigned>::value, "and with nothing else");

// Whether the calls that take an engine take an Asked.
template <class Asked, class = void>
struct AtTakes : std::false_type {};
template <class Asked>
struct AtTakes<Asked, decltype(void(std::declval<const Table &>().at(std::declval<Asked>(), 0)))> : std::true_type {};
template <class Asked, class = void>
struct RowTakes : std::false_type {};
template <class Asked>
struct RowTakes<Asked, decltype(void(std::declval<const Dispatcher &>().row(std::declval<Asked>())))> : std::true_type {};
template <class Asked, class = void>
struct SharesTake : std::false_type {};
template <class Asked>
struct SharesTake<Asked, decltype(void(std::declval<const Shares &>().at(std::declval<Asked>(), 0)))> : std::true_type {};
static_assert(AtTakes<Engine>::value && RowTakes<Engine>::value && SharesTake<Engine>::value, "they take an engine");
static_assert(!AtTakes<Row>::value && !RowTakes<Row>::value && !SharesTake<Row>::value, "and no row");
static_assert(!AtTakes<unsigned>::value && !RowTakes<unsigned>::value && !SharesTake<unsigned>::value, "and no number");

static void values() {
    const std::set<Engine> engines{Engine(2), Engine(0), Engine(2)};
    const std::unordered_set<Row> rows{Row(1), Row(1), Row(5)};
    CHECK(engines.size() == 2 && rows.size() == 2 && rows.count(Row(5)) == 1);
    CHECK((std::unordered_set<Engine>{Engine(1), Engine(2)}).size() == 2 && Row(3) < Row(4));
    CHECK((Duty{1, 2} == Duty{1, 2}) && (Duty{1, 2} != Duty{2, 2}) && (Duty{1, 2} != Duty{1, 3}));
    CHECK((Reading{1, 2, 3, 4} == Reading{1, 2, 3, 4}) && (Reading{1, 2, 3, 4} != Reading{1, 2, 3, 5}));
    CHECK(Held(3) == Held(3) && Held(3) != Held(TICKPLUME_NONE) && Reply(Held(3), Row(1)) != Reply(Held(3), Row(2)));
    CHECK(Reply(Held(3), Row(1)) == Reply(Held(3), Row(1)) && Reply(Held(3), Row(1)).held() == Held(3));
}

// ---- Refusals

// The word of what a call throws, as the C calls return it; 0 where it throws nothing.
template <class Call>
static std::uint64_t refused(Call call) {
    try {
        call();
    } catch (const Refusal &refusal) {
        met.insert(refusal.number());
        CHECK(static_cast<unsigned>(refusal.kind()) == refusal.number());
        CHECK(std::strstr(refusal.what(), ("refused " + std::to_string(refusal.number()) + ": ").c_str()) == refusal.what());
        CHECK(std::strstr(refusal.what(), refusal.meaning()) != nullptr);
        return refusal.number() + (refusal.place() << 8);
    }
    return 0;
}

static std::uint64_t word(tickplume_refusal_t refusal) { return refusal.kind + (refusal.place << 8); }

static std::string said(std::uint32_t engines, std::initializer_list<Duty> duties, std::uint32_t block_length = 0) {
    try {
        Table::build(engines, duties, block_length);
    } catch (const std::runtime_error &error) {
        return error.what();
    }
    return "";
}

static void sentences() {
    CHECK(said(0, {{1, 1}}) == "refused 1: the number of engines is not between 1 and 32");
    CHECK(said(1, {{1, 1}, {1, 1}}) == "refused 7: the duties need more than the engines can serve");
    CHECK(said(2, {{1, 1}, {1, 4}, {2, 1000001}}) == "refused 4: a duty's period is not between 1 and 1,000,000 (duty 2)");
    CHECK(said(2, {{4, 6}, {4, 6}}, 4) == "refused 24: the wanted block length does not divide every period");
    CHECK(said(2, {{2, 3}, {2, 3}}).empty() && said(2, {{4, 6}, {4, 6}}, 3).empty());
    try {
        Shares::build(1, {{1, 2}, {1, 6}, {1, 3}});
        CHECK(false);
    } catch (const Refusal &refusal) {
        CHECK(refusal.kind() == TICKPLUME_REFUSED_NO_SHARE_PLAN && refusal.place() == 2 && std::strcmp(refusal.place_is(), "block") == 0);
        CHECK(std::string(refusal.what()).find(" (block 2)") != std::string::npos);
    }
}

// ---- The same answers as in C

struct Set {
    std::uint32_t engines;
    std::vector<Duty> duties;
};

static const std::vector<Set> &sets() {
    static const std::vector<Set> all = {
        {2, {{2, 3}, {2, 3}, {2, 3}}}, {3, {{3, 4}, {3, 4}, {3, 4}, {3, 4}}}, {2, {{1, 3}, {3, 3}, {1, 3}}}, {1, {{1, 1}}},
        {0, {{1, 1}}}, {33, {}}, {1, {}}, {1, std::vector<Duty>(64, {1, 64})}, {1, std::vector<Duty>(65, {1, 100})},
        {1, std::vector<Duty>(1000, {1, 1000})}, {1, {{3, 2}, {1, 0}}}, {1, {{1, 0}, {3, 2}}}, {2, {{1, 4}, {2, 6}}},
        {1, {{1, 1}, {1, 1}}}, {3, {{6, 10}, {11, 20}, {23, 30}, {6, 20}, {5, 30}, {37, 60}}}, {1, {{1, 2}, {1, 6}, {1, 3}}},
        {1, {{1, 4097}, {1, 1}}}, {2, {{1, 4096}, {1, 1}}}, {2, {{4, 6}, {8, 12}, {12, 18}}}, {2, {{12, 12}, {6, 6}, {6, 12}}},
    };
    return all;
}

static const std::uint64_t ticks[] = {0, 1, 2, 3, 4, 5, 9, 10, 11, 59, 60, UINT64_MAX - 1, UINT64_MAX};

static void compare_questions(const Table &table, tickplume_table_t lent) {
    for (std::uint32_t e : {0u, 1u, 2u, 3u, 31u, 32u, UINT32_MAX}) {
        for (std::uint64_t tick : ticks) {
            const tickplume_reply_t told = tickplume_table_at(lent, tickplume_engine(e), tick);
            CHECK(refused([&] { table.at(Engine(e), tick); }) == word(told.refusal));
            if (told.refusal.kind) continue;
            const Reply reply = table.at(Engine(e), tick);
            CHECK(reply.row() == Row(told.row.number) && reply.idle() == (told.duty == TICKPLUME_NONE));
            CHECK(reply.idle() || reply.duty() == told.duty);
        }
    }
    for (std::uint64_t blocks : {UINT64_C(0), UINT64_C(1), UINT64_C(7), TICKPLUME_MOST_BLOCKS, TICKPLUME_MOST_BLOCKS + 1}) {
        const tickplume_loads_t told = tickplume_table_loads(lent, blocks);
        CHECK(refused([&] { table.loads(blocks); }) == word(told.refusal));
        if (!told.refusal.kind) CHECK(table.loads(blocks) == told.loads);
    }
}

// The lists beside the set that the table was built of, and beside the rows of the first blocks.
static void compare_lists(const Table &table, const Set &set) {
    const std::vector<Run> runs = table.runs();
    CHECK(table.duties() == set.duties && runs.size() == table.reading().runs && table.engines().size() == set.engines);
    for (const Run &run : runs)
        for (std::uint32_t unit = run.first; unit < run.first + run.length; unit++)
            CHECK(table.at(Engine(run.row.number()), unit) == Reply(Held(run.duty), run.row));
    std::vector<Row> rows;
    for (const Chain &chain : table.chains())
        for (std::uint32_t k = 0; k < chain.length; k++) rows.push_back(Row(chain.first.number() + (k + 2) % chain.length));
    CHECK(rows == table.dispatcher(2).rows());
}

static void known_lists() {
    const Table table = Table::build(4, {{21, 30}, {8, 20}, {5, 10}, {8, 20}, {8, 40}, {35, 50}, {12, 60}, {63, 70}});
    CHECK((table.chains() == std::vector<Chain>{Chain{Row(0), 2}, Chain{Row(2), 2}}));
    CHECK((table.runs()[1] == Run{Row(0), 1, 7, 3}) && (table.runs()[2] == Run{Row(1), 1, 0, 1}));
    CHECK(table.engines()[3] == Engine(3) && (table.duties()[7] == Duty{63, 70}));
    CHECK((Run{Row(0), 1, 2, 3} != Run{Row(1), 1, 2, 3}) && (Chain{Row(0), 1} != Chain{Row(0), 2}));
}

static void compare_dispatcher(const Table &table, tickplume_table_t lent) {
    for (std::uint64_t block : ticks) {
        tickplume_dispatcher_t told;
        CHECK(tickplume_dispatcher_start(&told, lent, block).kind == TICKPLUME_NOT_REFUSED);
        Dispatcher dispatcher = table.dispatcher(block);
        CHECK(dispatcher.block() == block && dispatcher.rows().size() == table.reading().engines);
        for (std::uint32_t e = 0; e <= table.reading().engines; e++) {
            const tickplume_row_reply_t reply = tickplume_dispatcher_row(&told, lent, tickplume_engine(e));
            CHECK(refused([&] { dispatcher.row(Engine(e)); }) == word(reply.refusal));
            if (reply.refusal.kind) continue;
            CHECK(dispatcher.row(Engine(e)) == Row(reply.row.number) && dispatcher.rows()[e] == Row(reply.row.number));
        }
        CHECK(refused([&] { dispatcher.next(); }) == word(tickplume_dispatcher_next(&told, lent)));
        CHECK(dispatcher.block() == tickplume_dispatcher_block(&told));
        CHECK(table.dispatcher(dispatcher.block()).rows() == dispatcher.rows());
    }
}

// A set in blocks of a wanted length.
static void compare_built(const Set &set, std::uint32_t block_length) {
    std::vector<tickplume_duty_t> list;
    for (const Duty &duty : set.duties) list.push_back({duty.service, duty.period});
    std::uint8_t room[TICKPLUME_MOST_BYTES];
    const tickplume_built_t built = tickplume_table_build(set.engines, list.data(), list.size(), block_length, room, sizeof room);
    CHECK(refused([&] { Table::build(set.engines, set.duties, block_length); }) == word(built.refusal));
    CHECK(refused([&] { Table::build(set.engines, set.duties.data(), set.duties.size(), block_length); }) == word(built.refusal));
    if (built.refusal.kind) return;
    const Table table = Table::build(set.engines, set.duties, block_length);
    const tickplume_reading_t reading = tickplume_table_judge(built.table);
    CHECK(table.bytes() == std::vector<std::uint8_t>(room, room + built.table.length));
    CHECK((table.reading() == Reading{reading.block_length, reading.engines, reading.duties, reading.runs}));
    CHECK(!block_length || reading.block_length == block_length);
    CHECK(table == Table::from_bytes(table.bytes()) && table == Table::from_bytes(room, built.table.length));
    compare_questions(table, built.table);
    compare_dispatcher(table, built.table);
    compare_lists(table, set);
}

static void tables() {
    for (const Set &set : sets())
        for (std::uint32_t block_length : {0u, 1u, 2u, 3u, 4u, 6u, 7u, UINT32_MAX}) compare_built(set, block_length);
}

// Who names no length has the greatest, in each of the three ways to pass duties; and each takes a length.
static void lengths() {
    const std::vector<Duty> duties{{4, 6}, {8, 12}, {12, 18}};
    const Table longest = Table::build(2, duties), shorter = Table::build(2, duties, 3);
    CHECK(longest.reading().block_length == 6 && longest == Table::build(2, duties, 0) && longest == Table::build(2, duties, 6));
    CHECK(longest == Table::build(2, duties.data(), 3) && longest == Table::build(2, {{4, 6}, {8, 12}, {12, 18}}));
    CHECK(shorter.reading().block_length == 3 && shorter == Table::build(2, duties.data(), 3, 3) && shorter != longest);
    CHECK(shorter == Table::build(2, {{4, 6}, {8, 12}, {12, 18}}, 3) && Table::build(1, {{4, 6}}, 3).reading().block_length == 3);
    CHECK(shorter.runs().size() == longest.runs().size() && shorter.chains() == longest.chains());
}

static void compare_shares(const Shares &shares, const std::vector<tickplume_duty_t> &list, const std::vector<std::uint32_t> &allotments) {
    const std::size_t duties = list.size();
    for (std::uint64_t block : ticks) {
        const std::uint32_t *const from = allotments.data() + static_cast<std::size_t>(block % shares.blocks()) * duties;
        CHECK(shares.allotted(block) == std::vector<std::uint32_t>(from, from + duties));
    }
    for (std::uint32_t e = 0; e <= shares.engines(); e++) {
        for (std::uint64_t tick : ticks) {
            const tickplume_share_reply_t told = tickplume_shares_at(shares.engines(), list.data(), duties, tickplume_engine(e), tick);
            CHECK(refused([&] { shares.at(Engine(e), tick); }) == word(told.refusal));
            if (!told.refusal.kind) CHECK(shares.at(Engine(e), tick) == Held(told.duty));
        }
    }
}

static void plans_of_shares() {
    std::vector<std::uint32_t> allotments(TICKPLUME_MOST_ALLOTMENTS);
    for (const Set &set : sets()) {
        std::vector<tickplume_duty_t> list;
        for (const Duty &duty : set.duties) list.push_back({duty.service, duty.period});
        const tickplume_shares_t told = tickplume_shares_build(set.engines, list.data(), list.size(), allotments.data(), allotments.size());
        CHECK(refused([&] { Shares::build(set.engines, set.duties); }) == word(told.refusal));
        CHECK(refused([&] { Shares::build(set.engines, set.duties.data(), set.duties.size()); }) == word(told.refusal));
        if (told.refusal.kind) continue;
        const Shares shares = Shares::build(set.engines, set.duties);
        CHECK(shares.engines() == set.engines && shares.duties() == set.duties);
        CHECK(shares.block_length() == told.block_length && shares.blocks() == told.blocks);
        compare_shares(shares, list, allotments);
    }
}

// ---- Bytes, nulls, states by hand, idle replies

static void bytes_and_nulls() {
    const Table table = Table::build(2, {{2, 3}, {2, 3}, {2, 3}});
    std::vector<std::uint8_t> cut = table.bytes();
    cut.pop_back();
    CHECK(refused([&] { Table::from_bytes(cut); }) == word(tickplume_table_judge({cut.data(), cut.size()}).refusal));
    CHECK(refused([&] { Table::from_bytes({1, 2, 3}); }) == 10 && refused([] { Table::from_bytes(nullptr, 5); }) == 10);
    CHECK(refused([] { Table::build(1, nullptr, 5); }) == 3 && refused([] { Shares::build(1, nullptr, 5); }) == 3);
    CHECK(refused([] { Table::build(1, {}); }) == 3 && refused([] { Shares::build(1, {}); }) == 3);
    CHECK(table != Table::build(3, {{2, 3}, {2, 3}, {2, 3}}) && !(table != Table::build(2, {{2, 3}, {2, 3}, {2, 3}})));
    CHECK(Shares::build(1, {{1, 2}}) == Shares::build(1, {{1, 2}}) && Shares::build(1, {{1, 2}}) != Shares::build(2, {{1, 2}}));
}

// A call that goes wrong throws what is named, and not a refusal.
template <class Fault, class Call>
static bool throws(Call call) {
    try {
        call();
    } catch (const Refusal &) {
        return false;
    } catch (const Fault &) {
        return true;
    }
    return false;
}

static void idle() {
    const Table table = Table::build(2, {{1, 3}, {3, 3}, {1, 3}});
    const Reply reply = table.at(Engine(1), 2);
    CHECK(reply.idle() && reply.row() == Row(1) && throws<std::logic_error>([&] { reply.duty(); }));
    const Held held = Shares::build(1, {{1, 2}, {1, 4}}).at(Engine(0), 3);
    CHECK(held.idle() && throws<std::logic_error>([&] { held.duty(); }));
}

static void by_hand() {
    const Table table = Table::build(3, {{3, 4}, {3, 4}, {3, 4}, {3, 4}});
    CHECK(Dispatcher::from_parts(table, 1, {Row(1), Row(2), Row(0)}).row(Engine(2)) == Row(0));
    Dispatcher wrong = Dispatcher::from_parts(table, 1, {Row(0), Row(1), Row(2)});
    CHECK(refused([&] { wrong.row(Engine(0)); }) == 20 && refused([&] { wrong.row(Engine(3)); }) == 18);
    CHECK(refused([&] { wrong.next(); }) == 20 && wrong.block() == 1 && wrong.rows()[2] == Row(2));
    CHECK(refused([&] { Dispatcher::from_parts(table, 0, std::vector<Row>(32, Row(0))).next(); }) == 20);
    CHECK(throws<std::length_error>([&] { Dispatcher::from_parts(table, 0, std::vector<Row>(33, Row(0))); }));
}

// A dispatcher and a copy go their own ways, and neither needs the table any more.
static void lifetimes() {
    Dispatcher dispatcher = Table::build(3, {{3, 4}, {3, 4}, {3, 4}, {3, 4}}).dispatcher();
    Dispatcher copy = dispatcher;
    for (std::uint32_t block = 0; block < 7; block++, dispatcher.next()) CHECK(dispatcher.row(Engine(0)) == Row(block % 3));
    CHECK(copy.block() == 0 && copy.row(Engine(2)) == Row(2) && dispatcher.block() == 7);
    std::vector<Table> kept;
    kept.push_back(Table::build(1, {{1, 1}}));
    kept.push_back(kept[0]);
    CHECK(kept[1].at(Engine(0), 9).duty() == 0 && kept[0] == kept[1]);
}

int main() {
    values();
    sentences();
    tables();
    lengths();
    known_lists();
    plans_of_shares();
    bytes_and_nulls();
    idle();
    by_hand();
    lifetimes();
    CHECK((met == std::set<unsigned>{1, 3, 4, 5, 6, 7, 10, 18, 19, 20, 21, 22, 23, 24}));
    if (failures) std::printf("%lu of %lu checks failed\n", failures, checks);
    return failures != 0;
}
