/* The C header: each typed call beside the library's own on the same input, answered and refused; what is read off a table beside what it
 * was made of; what the header says of short buffers, of bytes that stay, of the order of refusals and of its limits; every name and word.
 * It is compiled as C and as C++. Ends with status 0 exactly when all is as the header says. */
#include <stdio.h>
#include <stdlib.h>
#include <string.h>

#include "tickplume.h"
#include "tickplume.h" /* twice does no harm */

#define SIZE_OF(list) (sizeof(list) / sizeof *(list))
#define CHECK(holds) check((holds), #holds, __LINE__)

enum { PAINT = 0xa5, ROOM = TICKPLUME_MOST_BYTES + 16, SPARE = 8, SOME = 4096, LONG = 200 };

static const uint64_t MARK = UINT64_C(0xa5a5a5a5a5a5a5a5);
static uint64_t checks, failures, met[256];

static void check(int holds, const char *what, int line) {
    checks++;
    if (holds) return;
    failures++;
    if (failures <= 20) printf("line %d: not so: %s\n", line, what);
}

static uint64_t refused(unsigned number, uint64_t place) {
    return number + (place << 8);
}

/* The word of a refusal, and the note that it was met. */
static uint64_t word_of(tickplume_refusal_t refusal) {
    met[refusal.kind & 0xff]++;
    return refused(refusal.kind, refusal.place);
}

static int painted(const void *bytes, size_t length) {
    const unsigned char *at = TICKPLUME_CAST(const unsigned char *, bytes);
    while (length && at[length - 1] == PAINT) length--;
    return length == 0;
}

/* ---- Words and numbers ---- */

typedef struct named_t { tickplume_kind_t kind; unsigned number; const char *place; } named_t;

/* The names as they are promised, apart from the header's list. */
static const named_t names[] = {
    {TICKPLUME_NOT_REFUSED, 0, ""},
    {TICKPLUME_REFUSED_ENGINES_RANGE, 1, ""},
    {TICKPLUME_REFUSED_LISTS_DIFFER, 2, ""},
    {TICKPLUME_REFUSED_DUTIES_RANGE, 3, ""},
    {TICKPLUME_REFUSED_PERIOD_RANGE, 4, "duty"},
    {TICKPLUME_REFUSED_SERVICE_RANGE, 5, "duty"},
    {TICKPLUME_REFUSED_SLICE_NOT_WHOLE, 6, "duty"},
    {TICKPLUME_REFUSED_OVERLOAD, 7, ""},
    {TICKPLUME_REFUSED_NO_ROOM, 8, "needed"},
    {TICKPLUME_REFUSED_TEXT_FAULT, 9, "line"},
    {TICKPLUME_REFUSED_TABLE_FORM, 10, "byte"},
    {TICKPLUME_REFUSED_BLOCK_LENGTH, 11, ""},
    {TICKPLUME_REFUSED_TABLE_SLICE_NOT_WHOLE, 12, "duty"},
    {TICKPLUME_REFUSED_RUN_ORDER, 13, "run"},
    {TICKPLUME_REFUSED_RUN_SHARES_UNIT, 14, "run"},
    {TICKPLUME_REFUSED_RUN_JOINS, 15, "run"},
    {TICKPLUME_REFUSED_DUTY_ON_TWO_ROWS, 16, "run"},
    {TICKPLUME_REFUSED_RUNS_NOT_SLICE, 17, "duty"},
    {TICKPLUME_REFUSED_NO_SUCH_ENGINE, 18, ""},
    {TICKPLUME_REFUSED_TOO_MANY_BLOCKS, 19, ""},
    {TICKPLUME_REFUSED_STATE_NOT_ITS_BLOCKS, 20, ""},
    {TICKPLUME_REFUSED_LAST_BLOCK, 21, ""},
    {TICKPLUME_REFUSED_TOO_MANY_SHARE_BLOCKS, 22, ""},
    {TICKPLUME_REFUSED_NO_SHARE_PLAN, 23, "block"},
    {TICKPLUME_REFUSED_WANTED_LENGTH, 24, ""},
    {TICKPLUME_REFUSED_SHORT, 255, "entries needed"},
};

static const named_t *named(unsigned number) {
    for (size_t i = 0; i < SIZE_OF(names); i++)
        if (names[i].number == number) return &names[i];
    return NULL;
}

/* Every number has its words, those that are not listed too. (In C++ an enum of this list has no value above 255.) */
static void words(void) {
    const char *unlisted = "a number that this version does not list";
#ifdef __cplusplus
    const unsigned last = 255;
#else
    const unsigned last = 300;
#endif
    for (unsigned number = 0; number <= last; number++) {
        const tickplume_kind_t kind = TICKPLUME_CAST(tickplume_kind_t, number);
        const named_t *name = named(number);
        CHECK(!name || name->kind == kind);
        CHECK(strcmp(tickplume_place_is(kind), name ? name->place : "") == 0);
        CHECK((strcmp(tickplume_meaning(kind), unlisted) == 0) == !name);
        for (unsigned other = 0; other < number; other++)
            if (name && named(other)) CHECK(strcmp(tickplume_meaning(kind), tickplume_meaning(named(other)->kind)) != 0);
    }
    CHECK(strcmp(tickplume_meaning(TICKPLUME_NOT_REFUSED), "not refused") == 0);
    CHECK(strcmp(tickplume_meaning(TICKPLUME_REFUSED_OVERLOAD), "the duties need more than the engines can serve") == 0);
#define ONE_MORE(name, number, place, meaning) +1
    CHECK(SIZE_OF(names) == 1 TICKPLUME_REFUSALS(ONE_MORE));
}

static void numbers(void) {
    char version[40];
    snprintf(version, sizeof version, "%d.%d.%d", TICKPLUME_VERSION_MAJOR, TICKPLUME_VERSION_MINOR, TICKPLUME_VERSION_PATCH);
    CHECK(strcmp(version, TICKPLUME_VERSION) == 0);
    CHECK(TICKPLUME_SHORT == TICKPLUME_CAST(int, TICKPLUME_REFUSED_SHORT));
    CHECK(TICKPLUME_NUMBER(UINT64_C(0x123456789abcde17)) == 0x17);
    CHECK(TICKPLUME_PLACE(UINT64_C(0x123456789abcde17)) == UINT64_C(0x123456789abcde));
    CHECK(tickplume_engine(UINT32_MAX).number == UINT32_MAX);
    CHECK(TICKPLUME_NONE == UINT32_MAX && TICKPLUME_IDLE == UINT64_MAX);
}

/* ---- Tables by hand ---- */

typedef struct run_t { uint32_t row, duty, first, length; } run_t;
typedef struct bytes_t { uint8_t bytes[ROOM]; size_t length; } bytes_t;

static void put(bytes_t *to, uint32_t value, int bytes) {
    for (; bytes; bytes--, value >>= 8) to->bytes[to->length++] = TICKPLUME_CAST(uint8_t, value & 0xff);
}

static void begin(bytes_t *to, uint32_t block_length, uint32_t engines, const tickplume_duty_t *duties, uint32_t duties_len) {
    to->length = 0;
    put(to, 1, 1), put(to, block_length, 4), put(to, engines, 1), put(to, duties_len, 1);
    for (uint32_t i = 0; i < duties_len; i++) put(to, 2, 1), put(to, duties[i].service, 4), put(to, duties[i].period, 4);
}

static void add(bytes_t *to, run_t run) {
    put(to, 3, 1), put(to, run.row, 1), put(to, run.duty, 1), put(to, run.first, 4), put(to, run.length, 4);
}

/* Three duties on two engines with four runs, as most of these tables have them. */
static bytes_t by_hand(uint32_t block_length, const tickplume_duty_t *duties, run_t a, run_t b, run_t c, run_t d) {
    bytes_t table;
    begin(&table, block_length, 2, duties, 3);
    add(&table, a), add(&table, b), add(&table, c), add(&table, d);
    put(&table, 4, 1), put(&table, 4, 2);
    return table;
}

static tickplume_table_t lent(const bytes_t *bytes) {
    tickplume_table_t table;
    table.bytes = bytes->bytes;
    table.length = bytes->length;
    return table;
}

/* ---- The typed calls beside the library's own: tables ---- */

static const uint64_t ticks[] = {0, 1, 2, 3, 4, 5, 6, 7, 8, 9, 10, 11, 255, 256, UINT64_C(1) << 40, UINT64_MAX - 1, UINT64_MAX};
static const uint32_t engines_asked[] = {0, 1, 2, 3, 31, 32, 33, UINT32_MAX};

static void compare_questions(const bytes_t *bytes) {
    for (size_t e = 0; e < SIZE_OF(engines_asked); e++) {
        for (size_t t = 0; t < SIZE_OF(ticks); t++) {
            uint64_t answer[2] = {MARK, MARK};
            const tickplume_reply_t reply = tickplume_table_at(lent(bytes), tickplume_engine(engines_asked[e]), ticks[t]);
            const uint64_t word = tickplume_question(bytes->bytes, bytes->length, engines_asked[e], ticks[t], answer, 2);
            CHECK(word_of(reply.refusal) == word);
            CHECK(reply.row.number == (word ? TICKPLUME_NONE : answer[0]));
            CHECK(reply.duty == (word || answer[1] == TICKPLUME_IDLE ? TICKPLUME_NONE : answer[1]));
            CHECK(!word || painted(answer, sizeof answer));
        }
    }
}

static void compare_judge_and_count(const bytes_t *bytes) {
    static const uint64_t blocks[] = {0, 1, 2, 3, 1000, TICKPLUME_MOST_BLOCKS, TICKPLUME_MOST_BLOCKS + 1, UINT64_MAX};
    uint64_t answer[4] = {0, 0, 0, 0};
    const tickplume_reading_t reading = tickplume_table_judge(lent(bytes));
    CHECK(word_of(reading.refusal) == tickplume_judge(bytes->bytes, bytes->length, answer, 4));
    CHECK(reading.block_length == answer[0] && reading.engines == answer[1] && reading.duties == answer[2] && reading.runs == answer[3]);
    for (size_t i = 0; i < SIZE_OF(blocks); i++) {
        const tickplume_loads_t loads = tickplume_table_loads(lent(bytes), blocks[i]);
        answer[0] = 0;
        CHECK(word_of(loads.refusal) == tickplume_count(bytes->bytes, bytes->length, blocks[i], answer, 1));
        CHECK(loads.loads == answer[0]);
    }
}

static void compare_rows(const bytes_t *bytes, const tickplume_dispatcher_t *dispatcher) {
    for (size_t e = 0; e < SIZE_OF(engines_asked); e++) {
        uint64_t row = TICKPLUME_NONE;
        const tickplume_row_reply_t reply = tickplume_dispatcher_row(dispatcher, lent(bytes), tickplume_engine(engines_asked[e]));
        const uint64_t word = tickplume_row(bytes->bytes, bytes->length, dispatcher->state, TICKPLUME_STATE, engines_asked[e], &row, 1);
        CHECK(word_of(reply.refusal) == word);
        CHECK(reply.row.number == row);
    }
}

/* All rows at once: each engine's, 0 past the last; an entry that is no row is none. */
static void compare_all_rows(const bytes_t *bytes, const tickplume_dispatcher_t *dispatcher) {
    tickplume_row_t rows[TICKPLUME_MOST_ENGINES + 1];
    tickplume_dispatcher_t wide = *dispatcher;
    memset(rows, PAINT, sizeof rows);
    tickplume_dispatcher_rows(dispatcher, rows);
    for (uint32_t e = 0; e < TICKPLUME_MOST_ENGINES; e++) {
        const tickplume_row_reply_t reply = tickplume_dispatcher_row(dispatcher, lent(bytes), tickplume_engine(e));
        if (!reply.refusal.kind) CHECK(rows[e].number == reply.row.number);
        if (reply.refusal.kind == TICKPLUME_REFUSED_NO_SUCH_ENGINE) CHECK(rows[e].number == 0);
    }
    CHECK(painted(&rows[TICKPLUME_MOST_ENGINES], sizeof rows[0]));
    wide.state[32] = UINT64_MAX - 1;
    tickplume_dispatcher_rows(&wide, rows);
    CHECK(rows[31].number == TICKPLUME_NONE);
}

/* A step from a state that is right, and from one that is not: refused, it stays. */
static void compare_step(const bytes_t *bytes, tickplume_dispatcher_t dispatcher) {
    const tickplume_dispatcher_t before = dispatcher;
    uint64_t state[TICKPLUME_STATE], word;
    memcpy(state, dispatcher.state, sizeof state);
    word = tickplume_next(bytes->bytes, bytes->length, state, TICKPLUME_STATE);
    CHECK(word_of(tickplume_dispatcher_next(&dispatcher, lent(bytes))) == word);
    CHECK(memcmp(dispatcher.state, state, sizeof state) == 0);
    CHECK(word ? memcmp(&dispatcher, &before, sizeof before) == 0 : tickplume_dispatcher_block(&dispatcher) == before.state[0] + 1);
}

static void compare_dispatcher(const bytes_t *bytes) {
    for (size_t t = 0; t < SIZE_OF(ticks); t++) {
        tickplume_dispatcher_t dispatcher;
        uint64_t state[TICKPLUME_STATE], word;
        memset(&dispatcher, PAINT, sizeof dispatcher);
        memset(state, PAINT, sizeof state);
        word = tickplume_start(bytes->bytes, bytes->length, ticks[t], state, TICKPLUME_STATE);
        CHECK(word_of(tickplume_dispatcher_start(&dispatcher, lent(bytes), ticks[t])) == word);
        CHECK(memcmp(dispatcher.state, state, sizeof state) == 0);
        CHECK(word ? painted(&dispatcher, sizeof dispatcher) : tickplume_dispatcher_block(&dispatcher) == ticks[t]);
        compare_rows(bytes, &dispatcher);
        compare_all_rows(bytes, &dispatcher);
        compare_step(bytes, dispatcher);
        dispatcher.state[1 + t % 32] += 1;
        compare_rows(bytes, &dispatcher);
        compare_step(bytes, dispatcher);
    }
}

/* What is read off an accepted table: in block 0 engine i runs row i, so at every tick of it an engine has the duty of the run that holds
 * the unit, and is idle where none does. */
static void compare_lists(const bytes_t *bytes, const tickplume_reading_t reading) {
    uint32_t units = 0, busy = 0;
    for (uint32_t k = 0; k < reading.runs; k++) {
        const tickplume_run_t run = tickplume_table_run(lent(bytes), k);
        CHECK(run.length > 0 && run.row.number < reading.engines && run.duty < reading.duties);
        for (uint32_t unit = run.first; unit < run.first + run.length; unit++, units++)
            CHECK(tickplume_table_at(lent(bytes), tickplume_engine(run.row.number), unit).duty == run.duty);
    }
    for (uint32_t e = 0; e < reading.engines; e++)
        for (uint32_t tick = 0; tick < reading.block_length; tick++)
            busy += tickplume_table_at(lent(bytes), tickplume_engine(e), tick).duty != TICKPLUME_NONE;
    CHECK(units == busy);
    for (uint32_t i = reading.duties; i < 300; i++) CHECK(tickplume_table_duty(lent(bytes), i).period == 0);
    for (uint32_t k = reading.runs; k < 300; k++) CHECK(tickplume_table_run(lent(bytes), k).length == 0);
}

/* Of any bytes, cut anywhere, nothing past their end is read: the copy has exactly as many, and a checker of memory would tell. */
static void read_cut(const bytes_t *bytes) {
    for (size_t length = 0; length <= bytes->length; length++) {
        uint8_t *copy = TICKPLUME_CAST(uint8_t *, malloc(length ? length : 1));
        tickplume_table_t cut;
        cut.bytes = copy;
        cut.length = length;
        memcpy(copy, bytes->bytes, length);
        for (uint32_t i = 0; i < 5; i++) {
            CHECK((tickplume_table_duty(cut, i).period != 0) == (i < 3 && length >= 7 + 9 * (i + 1)));
            CHECK((tickplume_table_run(cut, i).length != 0) == (i < 4 && length >= 34 + 11 * (i + 1)));
        }
        free(copy);
    }
}

/* A table whose numbers fill all their bytes, beside the numbers that it was made of. */
static void lists_by_hand(void) {
    static const tickplume_duty_t duties[] = {{0x01020304, 0x05060708}, {1, 2}, {UINT32_MAX, 0x80000000}};
    static const run_t a = {1, 2, 0x01020304, 0x05060708}, b = {255, 254, UINT32_MAX, 0x80000000}, c = {0, 0, 0, 1}, d = {3, 1, 4, 1};
    const bytes_t bytes = by_hand(3, duties, a, b, c, d);
    const run_t runs[] = {a, b, c, d};
    for (uint32_t i = 0; i < 3; i++) {
        const tickplume_duty_t duty = tickplume_table_duty(lent(&bytes), i);
        CHECK(duty.service == duties[i].service && duty.period == duties[i].period);
    }
    for (uint32_t k = 0; k < 4; k++) {
        const tickplume_run_t run = tickplume_table_run(lent(&bytes), k);
        CHECK(run.row.number == runs[k].row && run.duty == runs[k].duty && run.first == runs[k].first && run.length == runs[k].length);
    }
    CHECK(tickplume_table_run(lent(&bytes), 4).row.number == TICKPLUME_NONE && tickplume_table_run(lent(&bytes), 4).duty == TICKPLUME_NONE);
    CHECK(tickplume_table_duty(lent(&bytes), UINT32_MAX).period == 0 && tickplume_table_run(lent(&bytes), UINT32_MAX).length == 0);
    read_cut(&bytes);
    bytes_t other = bytes; /* records of another kind */
    other.bytes[16] = 3, other.bytes[45] = 2;
    CHECK(tickplume_table_duty(lent(&other), 1).period == 0 && tickplume_table_duty(lent(&other), 2).period == 0x80000000);
    CHECK(tickplume_table_run(lent(&other), 1).length == 0 && tickplume_table_run(lent(&other), 2).length == 1);
    other.bytes[0] = 2;
    CHECK(tickplume_table_duty(lent(&other), 0).period == 0 && tickplume_table_run(lent(&other), 0).length == 0);
}

static void compare_table(const bytes_t *bytes, uint64_t judged) {
    uint64_t answer[4];
    CHECK(tickplume_judge(bytes->bytes, bytes->length, answer, 4) == judged);
    compare_questions(bytes);
    compare_judge_and_count(bytes);
    compare_dispatcher(bytes);
    if (!judged) compare_lists(bytes, tickplume_table_judge(lent(bytes)));
}

/* A good table, one in blocks of half the periods' greatest common divisor, and one for each refusal of the judge. */
static void tables(void) {
    static const tickplume_duty_t duties[] = {{2, 3}, {2, 3}, {2, 3}}, part[] = {{2, 3}, {2, 3}, {1, 6}};
    static const tickplume_duty_t twice[] = {{4, 6}, {8, 12}, {12, 18}}, other[] = {{4, 6}, {8, 12}, {2, 4}};
    static const run_t a = {0, 0, 0, 2}, b = {0, 1, 2, 1}, c = {1, 1, 0, 1}, d = {1, 2, 1, 2};
    static const run_t shared = {0, 1, 1, 1}, a1 = {0, 0, 0, 1}, a2 = {0, 0, 1, 1}, c2 = {1, 2, 0, 2}, d2 = {1, 1, 2, 1};
    static const run_t less = {1, 2, 1, 1}, past = {1, 2, 1, 3};
    const bytes_t good = by_hand(3, duties, a, b, c, d), shorter = by_hand(3, twice, a, b, c, d);
    bytes_t bad = good;
    compare_table(&good, 0);
    compare_table(&shorter, 0);
    for (bad.length = 0; bad.length < 7; bad.length++) compare_table(&bad, refused(10, 0));
    bad.length = good.length - 1;
    compare_table(&bad, refused(10, good.length - 3));
    bad = by_hand(3, duties, a, b, c, past), compare_table(&bad, refused(10, good.length - 14));
    bad = by_hand(6, duties, a, b, c, d), compare_table(&bad, refused(11, 0));
    bad = by_hand(3, other, a, b, c, d), compare_table(&bad, refused(11, 0));
    bad = by_hand(3, part, a, b, c, d), compare_table(&bad, refused(12, 2));
    bad = by_hand(3, duties, a, b, d, c), compare_table(&bad, refused(13, 3));
    bad = by_hand(3, duties, a, shared, c, d), compare_table(&bad, refused(14, 1));
    bad = by_hand(3, duties, a1, a2, c, d), compare_table(&bad, refused(15, 1));
    bad = by_hand(3, duties, a, b, c2, d2), compare_table(&bad, refused(16, 3));
    bad = by_hand(3, duties, a, b, c, less), compare_table(&bad, refused(17, 2));
}

/* Two engines with 1, 3 and 1 ticks in every 3: engine 1 is idle at tick 2, which is not refused. */
static void idle(void) {
    static const tickplume_duty_t duties[] = {{1, 3}, {3, 3}, {1, 3}};
    uint8_t room[TICKPLUME_MOST_BYTES];
    bytes_t bytes;
    const tickplume_built_t built = tickplume_table_build(2, duties, 3, 0, room, sizeof room);
    const tickplume_reply_t reply = tickplume_table_at(built.table, tickplume_engine(1), 2);
    CHECK(word_of(reply.refusal) == 0 && reply.duty == TICKPLUME_NONE && reply.row.number == 1);
    CHECK(tickplume_table_at(built.table, tickplume_engine(1), 1).duty == 2);
    CHECK(tickplume_shares_at(2, duties, 3, tickplume_engine(1), 2).duty == TICKPLUME_NONE);
    CHECK(tickplume_shares_at(2, duties, 3, tickplume_engine(1), 2).refusal.kind == TICKPLUME_NOT_REFUSED);
    memcpy(bytes.bytes, built.table.bytes, built.table.length);
    bytes.length = built.table.length;
    compare_table(&bytes, 0);
}

/* ---- The typed calls beside the library's own: duties ---- */

typedef struct set_t { uint32_t engines; size_t length; tickplume_duty_t duties[LONG]; } set_t;

/* Sets with every refusal of both builders, by itself and with others. */
static const set_t sets[] = {
    {2, 3, {{2, 3}, {2, 3}, {2, 3}}},
    {3, 4, {{3, 4}, {3, 4}, {3, 4}, {3, 4}}},
    {2, 3, {{1, 3}, {3, 3}, {1, 3}}},
    {1, 1, {{1, 1}}},
    {0, 1, {{1, 1}}},
    {33, 0, {{0, 0}}},
    {UINT32_MAX, 1, {{0, 0}}},
    {1, 0, {{0, 0}}},
    {1, LONG, {{1, 1}}},
    {1, 2, {{3, 2}, {1, 0}}},
    {1, 2, {{1, 0}, {3, 2}}},
    {1, 1, {{1, 1000001}}},
    {1, 1, {{0, 7}}},
    {1, 1, {{UINT32_MAX, UINT32_MAX}}},
    {2, 2, {{1, 4}, {2, 6}}},
    {2, 3, {{4, 6}, {8, 12}, {12, 18}}},
    {2, 3, {{12, 12}, {6, 6}, {6, 12}}},
    {1, 2, {{1, 1}, {1, 1}}},
    {3, 6, {{6, 10}, {11, 20}, {23, 30}, {6, 20}, {5, 30}, {37, 60}}},
    {1, 3, {{1, 2}, {1, 6}, {1, 3}}},
    {3, 4, {{2, 3}, {2, 3}, {3, 4}, {11, 12}}},
    {1, 2, {{1, 4097}, {1, 1}}},
    {1, 2, {{1, 4096}, {1, 1}}},
    {1, 2, {{1000000, 1000000}, {999999, 999999}}},
};

typedef struct pair_t { uint32_t services[LONG], periods[LONG]; } pair_t;

static pair_t pair_of(const set_t *set) {
    pair_t pair;
    for (size_t i = 0; i < LONG; i++) pair.services[i] = set->duties[i].service, pair.periods[i] = set->duties[i].period;
    return pair;
}

static void compare_build(const set_t *set, uint32_t block_length, size_t room_len) {
    const pair_t pair = pair_of(set);
    uint8_t room[ROOM], raw[ROOM];
    uint64_t length = 0, word;
    tickplume_built_t built;
    memset(room, PAINT, sizeof room), memset(raw, PAINT, sizeof raw);
    built = tickplume_table_build(set->engines, set->duties, set->length, block_length, room, room_len);
    word = tickplume_build(set->engines, pair.services, set->length, pair.periods, set->length, block_length, raw, room_len, &length, 1);
    CHECK(word_of(built.refusal) == word);
    CHECK(built.table.length == length);
    CHECK(built.table.bytes == (word ? NULL : room));
    CHECK(memcmp(room, raw, sizeof room) == 0);
    CHECK(painted(room + length, sizeof room - length));
    if (!word && block_length) CHECK(tickplume_table_judge(built.table).block_length == block_length);
}

static void compare_shares(const set_t *set, size_t allotments_len) {
    static uint32_t allotments[SOME + SPARE], raw[SOME + SPARE];
    const pair_t pair = pair_of(set);
    uint64_t answer[3] = {0, 0, 0}, word;
    tickplume_shares_t shares;
    memset(allotments, PAINT, sizeof allotments), memset(raw, PAINT, sizeof raw);
    shares = tickplume_shares_build(set->engines, set->duties, set->length, allotments, allotments_len);
    word = tickplume_shares(set->engines, pair.services, set->length, pair.periods, set->length, raw, allotments_len, answer, 3);
    CHECK(word_of(shares.refusal) == word);
    CHECK(shares.entries == answer[0] && shares.block_length == answer[1] && shares.blocks == answer[2]);
    CHECK(memcmp(allotments, raw, sizeof raw) == 0);
    CHECK(painted(allotments + shares.entries, sizeof allotments - shares.entries * sizeof *allotments));
}

static void compare_share_questions(const set_t *set) {
    const pair_t pair = pair_of(set);
    for (size_t e = 0; e < SIZE_OF(engines_asked); e++) {
        for (size_t t = 0; t < SIZE_OF(ticks); t++) {
            uint64_t duty = MARK, word;
            const tickplume_engine_t engine = tickplume_engine(engines_asked[e]);
            const tickplume_share_reply_t reply = tickplume_shares_at(set->engines, set->duties, set->length, engine, ticks[t]);
            word = tickplume_share_at(set->engines, pair.services, set->length, pair.periods, set->length, engines_asked[e], ticks[t],
                                      &duty, 1);
            CHECK(word_of(reply.refusal) == word);
            CHECK(reply.duty == (word || duty == TICKPLUME_IDLE ? TICKPLUME_NONE : duty));
            CHECK(!word || duty == MARK);
        }
    }
}

static void duty_sets(void) {
    static const size_t rooms[] = {0, 29, 30, 80, 81, TICKPLUME_MOST_BYTES, ROOM}, entries[] = {0, 1, 35, 36, SOME, SOME + SPARE};
    static const uint32_t lengths[] = {0, 1, 2, 3, 4, 5, 6, 12, TICKPLUME_MOST_TICKS, UINT32_MAX};
    for (size_t i = 0; i < SIZE_OF(sets); i++) {
        for (size_t k = 0; k < SIZE_OF(rooms) * SIZE_OF(lengths); k++)
            compare_build(&sets[i], lengths[k / SIZE_OF(rooms)], rooms[k % SIZE_OF(rooms)]);
        for (size_t k = 0; k < SIZE_OF(entries); k++) compare_shares(&sets[i], entries[k]);
        compare_share_questions(&sets[i]);
    }
}

/* 64 duties are taken; 65 and more are refused, however many, and so are none. */
static void many_duties(void) {
    static set_t many;
    many.engines = 1;
    for (size_t i = 0; i < LONG; i++) many.duties[i].service = 1, many.duties[i].period = 64;
    for (many.length = 0; many.length <= LONG; many.length++) {
        const unsigned kind = many.length < 1 || many.length > TICKPLUME_MOST_DUTIES ? 3 : 0;
        uint8_t room[TICKPLUME_MOST_BYTES];
        CHECK(tickplume_table_build(1, many.duties, many.length, 0, room, sizeof room).refusal.kind == kind);
        CHECK(tickplume_shares_at(1, many.duties, many.length, tickplume_engine(0), 0).refusal.kind == kind);
        compare_build(&many, 0, ROOM);
        compare_build(&many, 64, ROOM);
        compare_shares(&many, SOME);
    }
}

/* ---- Null pointers ---- */

static void null_lists(void) {
    static const tickplume_duty_t duties[] = {{2, 3}, {2, 3}, {2, 3}};
    tickplume_table_t none = {NULL, 5};
    tickplume_dispatcher_t dispatcher;
    uint8_t room[TICKPLUME_MOST_BYTES];
    uint32_t allotments[1];
    memset(&dispatcher, PAINT, sizeof dispatcher);
    CHECK(word_of(tickplume_table_build(2, NULL, 3, 0, room, sizeof room).refusal) == refused(3, 0));
    CHECK(word_of(tickplume_table_build(2, NULL, 0, 0, NULL, 9).refusal) == refused(3, 0));
    CHECK(word_of(tickplume_table_build(2, duties, 3, 0, NULL, sizeof room).refusal) == refused(8, 81));
    CHECK(word_of(tickplume_table_build(2, duties, 3, 2, NULL, sizeof room).refusal) == refused(24, 0));
    CHECK(word_of(tickplume_table_judge(none).refusal) == refused(10, 0));
    CHECK(word_of(tickplume_table_at(none, tickplume_engine(0), 0).refusal) == refused(10, 0));
    CHECK(word_of(tickplume_table_loads(none, 0).refusal) == refused(10, 0));
    CHECK(word_of(tickplume_dispatcher_start(&dispatcher, none, 0)) == refused(10, 0));
    CHECK(word_of(tickplume_dispatcher_next(&dispatcher, none)) == refused(10, 0));
    CHECK(word_of(tickplume_dispatcher_row(&dispatcher, none, tickplume_engine(0)).refusal) == refused(10, 0));
    CHECK(painted(&dispatcher, sizeof dispatcher));
    CHECK(word_of(tickplume_shares_build(2, NULL, 3, allotments, 1).refusal) == refused(3, 0));
    CHECK(word_of(tickplume_shares_build(2, duties, 3, NULL, 9).refusal) == refused(8, 3));
    CHECK(word_of(tickplume_shares_at(2, NULL, 3, tickplume_engine(0), 0).refusal) == refused(3, 0));
}

/* ---- Part 1: entries that each call needs, and those that stay ---- */

static const uint32_t twos[] = {2, 2, 2}, threes[] = {3, 3, 3}, none_lent[1] = {0};

/* Each call with so many entries lent for its answer (or its state), in a buffer that has more. */
typedef uint64_t (*call_t)(uint64_t *answer, size_t length);

static bytes_t good;

static uint64_t build(uint64_t *answer, size_t length) {
    uint8_t room[81];
    return tickplume_build(2, twos, 3, threes, 3, 0, room, sizeof room, answer, length);
}
static uint64_t judge(uint64_t *answer, size_t length) { return tickplume_judge(good.bytes, good.length, answer, length); }
static uint64_t question(uint64_t *answer, size_t length) { return tickplume_question(good.bytes, good.length, 1, 5, answer, length); }
static uint64_t start(uint64_t *state, size_t length) { return tickplume_start(good.bytes, good.length, 7, state, length); }
static uint64_t row(uint64_t *answer, size_t length) {
    uint64_t state[TICKPLUME_STATE];
    start(state, TICKPLUME_STATE);
    return tickplume_row(good.bytes, good.length, state, TICKPLUME_STATE, 1, answer, length);
}
static uint64_t next(uint64_t *state, size_t length) {
    if (length >= TICKPLUME_STATE) start(state, length);
    return tickplume_next(good.bytes, good.length, state, length);
}
static uint64_t count(uint64_t *answer, size_t length) { return tickplume_count(good.bytes, good.length, 9, answer, length); }
static uint64_t shares(uint64_t *answer, size_t length) {
    uint32_t allotments[3];
    return tickplume_shares(2, twos, 3, threes, 3, allotments, 3, answer, length);
}
static uint64_t share_at(uint64_t *answer, size_t length) { return tickplume_share_at(2, twos, 3, threes, 3, 1, 5, answer, length); }

static void entries_needed(void) {
    static const struct { call_t call; size_t needed; } calls[] = {
        {build, TICKPLUME_BUILD_ANSWER}, {judge, TICKPLUME_JUDGE_ANSWER}, {question, TICKPLUME_QUESTION_ANSWER},
        {start, TICKPLUME_STATE}, {row, TICKPLUME_ROW_ANSWER}, {next, TICKPLUME_STATE},
        {count, TICKPLUME_COUNT_ANSWER}, {shares, TICKPLUME_SHARES_ANSWER}, {share_at, TICKPLUME_SHARE_AT_ANSWER},
    };
    static const tickplume_duty_t duties[] = {{2, 3}, {2, 3}, {2, 3}};
    static const run_t a = {0, 0, 0, 2}, b = {0, 1, 2, 1}, c = {1, 1, 0, 1}, d = {1, 2, 1, 2};
    good = by_hand(3, duties, a, b, c, d);
    for (size_t i = 0; i < SIZE_OF(calls); i++) {
        uint64_t lent_entries[TICKPLUME_STATE + SPARE];
        memset(lent_entries, PAINT, sizeof lent_entries);
        for (size_t length = 0; length < calls[i].needed; length++)
            CHECK(calls[i].call(lent_entries, length) == refused(TICKPLUME_SHORT, calls[i].needed));
        met[TICKPLUME_SHORT]++;
        CHECK(painted(lent_entries, sizeof lent_entries));
        for (size_t length = calls[i].needed; length <= TICKPLUME_STATE + SPARE; length++) {
            CHECK(calls[i].call(lent_entries, length) == 0);
            CHECK(lent_entries[calls[i].needed - 1] != MARK);
            CHECK(painted(lent_entries + calls[i].needed, sizeof lent_entries - calls[i].needed * sizeof *lent_entries));
        }
    }
}

/* 255 before all others; of a short state and a short answer the state is told. */
static void short_first(void) {
    uint64_t answer[TICKPLUME_STATE];
    uint8_t room[1] = {PAINT};
    uint32_t allotments[1] = {0};
    memset(answer, PAINT, sizeof answer);
    CHECK(tickplume_build(0, none_lent, 0, none_lent, 1, 0, room, 1, answer, 0) == refused(255, 1));
    CHECK(tickplume_build(2, twos, 3, threes, 3, 2, room, 1, answer, 0) == refused(255, 1));
    CHECK(tickplume_judge(room, 0, answer, 3) == refused(255, 4));
    CHECK(tickplume_question(room, 0, 99, 0, answer, 1) == refused(255, 2));
    CHECK(tickplume_start(room, 0, 0, answer, 32) == refused(255, 33));
    CHECK(tickplume_row(room, 0, answer, 32, 99, answer, 0) == refused(255, 33));
    CHECK(tickplume_row(room, 0, answer, 33, 99, answer, 0) == refused(255, 1));
    CHECK(tickplume_next(room, 0, answer, 32) == refused(255, 33));
    CHECK(tickplume_count(room, 0, UINT64_MAX, answer, 0) == refused(255, 1));
    CHECK(tickplume_shares(0, none_lent, 0, none_lent, 1, allotments, 1, answer, 2) == refused(255, 3));
    CHECK(tickplume_share_at(0, none_lent, 0, none_lent, 1, 99, 0, answer, 0) == refused(255, 1));
    CHECK(painted(answer, sizeof answer) && room[0] == PAINT && allotments[0] == 0);
    CHECK(tickplume_build(1, none_lent, 0, none_lent, 1, 0, room, 1, answer, 1) == refused(2, 0));
    CHECK(tickplume_build(1, none_lent, 0, none_lent, 1, 7, room, 1, answer, 1) == refused(2, 0));
    CHECK(tickplume_shares(1, none_lent, 0, none_lent, 1, allotments, 1, answer, 3) == refused(2, 0));
    CHECK(tickplume_share_at(1, none_lent, 0, none_lent, 1, 0, 0, answer, 1) == refused(2, 0));
    met[2]++;
}

/* ---- The order of refusals ---- */

static uint64_t building_in(uint32_t engines, const tickplume_duty_t *duties, size_t length, uint32_t block_length, size_t room_len) {
    uint8_t room[ROOM];
    return word_of(tickplume_table_build(engines, duties, length, block_length, room, room_len).refusal);
}

static uint64_t building(uint32_t engines, const tickplume_duty_t *duties, size_t length, size_t room_len) {
    return building_in(engines, duties, length, 0, room_len);
}

static uint64_t sharing(uint32_t engines, const tickplume_duty_t *duties, size_t length, size_t entries) {
    static uint32_t allotments[SOME];
    return word_of(tickplume_shares_build(engines, duties, length, allotments, entries).refusal);
}

static uint64_t asking(uint32_t engines, const tickplume_duty_t *duties, size_t length, uint32_t engine) {
    return word_of(tickplume_shares_at(engines, duties, length, tickplume_engine(engine), 0).refusal);
}

/* Each list breaks what the first refusal says and what later ones say. */
static void order(void) {
    static const tickplume_duty_t four_late[] = {{9, 2}, {1, 0}}, five_late[] = {{1, 0}, {9, 2}}, both[] = {{0, 0}, {0, 0}};
    static const tickplume_duty_t part[] = {{1, 3}, {1, 4}, {1, 6}, {6, 6}, {6, 6}}, full[] = {{1, 1}, {1, 1}};
    static const tickplume_duty_t far_and_full[] = {{1, 1}, {1, 1}, {1, 4097}}, full_and_below[] = {{1, 2}, {1, 6}, {1, 3}, {1, 1}};
    static const tickplume_duty_t below[] = {{1, 2}, {1, 6}, {1, 3}}, far[] = {{1, 2}, {1, 6}, {1, 3}, {1, 1000000}};
    CHECK(building(0, both, 0, 0) == refused(1, 0));
    CHECK(building(1, both, 0, 0) == refused(3, 0));
    CHECK(building(1, four_late, 2, 0) == refused(5, 0) && sharing(1, four_late, 2, 0) == refused(5, 0));
    CHECK(building(1, five_late, 2, 0) == refused(4, 0) && asking(1, five_late, 2, 9) == refused(4, 0));
    CHECK(building(1, both, 2, 0) == refused(4, 0));
    CHECK(building(1, part, 5, 0) == refused(6, 0));
    CHECK(building(1, full, 2, 0) == refused(7, 0));
    CHECK(building(2, full, 2, 0) == refused(8, 50));
    CHECK(sharing(0, both, 0, 0) == refused(1, 0) && asking(0, both, 0, 9) == refused(1, 0));
    CHECK(sharing(1, far_and_full, 3, 0) == refused(22, 0) && asking(1, far_and_full, 3, 9) == refused(22, 0));
    CHECK(sharing(1, full_and_below, 4, 0) == refused(7, 0) && asking(1, full_and_below, 4, 9) == refused(7, 0));
    CHECK(sharing(1, far, 4, 0) == refused(22, 0) && asking(1, far, 4, 9) == refused(22, 0));
    CHECK(sharing(1, below, 3, 17) == refused(8, 18) && sharing(1, below, 3, 18) == refused(23, 2));
    CHECK(asking(1, below, 3, 9) == refused(23, 2));
    CHECK(asking(2, full, 2, 2) == refused(18, 0));
}

/* 24 stands after 5 and before 6: each list breaks 24 and what is looked for before it or after it. A length that divides every period is
 * taken, and 6 and 7 are then said of that length. */
static void order_of_lengths(void) {
    static const tickplume_duty_t four[] = {{6, 6}, {6, 0}}, five[] = {{6, 6}, {7, 6}}, part[] = {{1, 4}, {6, 6}};
    static const tickplume_duty_t full[] = {{6, 6}, {6, 6}}, two_thirds[] = {{4, 6}, {4, 6}, {4, 6}}, apart[] = {{2, 6}, {3, 9}};
    CHECK(building_in(0, full, 2, 4, 0) == refused(1, 0) && building_in(1, full, 0, 4, 0) == refused(3, 0));
    CHECK(building_in(1, four, 2, 4, 0) == refused(4, 1) && building_in(1, five, 2, 4, 0) == refused(5, 1));
    CHECK(building_in(1, part, 2, 3, 0) == refused(24, 0) && building_in(1, part, 2, 2, 0) == refused(6, 0));
    CHECK(building_in(1, full, 2, 4, 0) == refused(24, 0) && building_in(1, full, 2, 3, 0) == refused(7, 0));
    CHECK(building_in(2, full, 2, 4, 0) == refused(24, 0) && building_in(2, full, 2, 3, 0) == refused(8, 50));
    for (uint32_t length = 0; length < 100; length++) {
        const uint64_t word = length % 3 == 0 && length <= 6 ? 0 : length < 3 ? refused(6, 0) : refused(24, 0);
        CHECK(building_in(2, two_thirds, 3, length, ROOM) == word);
    }
    CHECK(building_in(2, two_thirds, 3, UINT32_MAX, ROOM) == refused(24, 0));
    CHECK(building_in(1, apart, 2, 2, ROOM) == refused(24, 0) && building_in(1, apart, 2, 9, ROOM) == refused(24, 0));
    CHECK(building_in(1, apart, 2, 3, ROOM) == 0 && building_in(1, apart, 2, 1, ROOM) == refused(6, 0));
}

/* ---- Limits ---- */

/* A table of 64 duties and so many runs of one unit each. */
static bytes_t of_runs(uint32_t runs) {
    tickplume_duty_t duties[TICKPLUME_MOST_DUTIES];
    bytes_t table;
    for (int i = 0; i < TICKPLUME_MOST_DUTIES; i++) duties[i].service = 2, duties[i].period = 128;
    begin(&table, 128, 1, duties, TICKPLUME_MOST_DUTIES);
    for (uint32_t k = 0; k < runs; k++) {
        run_t run = {0, 0, 0, 1};
        run.duty = k % 64, run.first = k % 128;
        add(&table, run);
    }
    put(&table, 4, 1), put(&table, runs, 2);
    return table;
}

static void limits_of_tables(void) {
    const bytes_t most = of_runs(TICKPLUME_MOST_RUNS);
    tickplume_duty_t duty = {1, TICKPLUME_MOST_TICKS}, half[TICKPLUME_MOST_DUTIES];
    uint8_t room[TICKPLUME_MOST_BYTES + 11];
    CHECK(most.length == TICKPLUME_MOST_BYTES);
    CHECK(tickplume_table_judge(lent(&most)).runs == TICKPLUME_MOST_RUNS);
    memcpy(room, most.bytes, most.length - 3);
    memcpy(room + most.length - 3, most.bytes + most.length - 14, 11);
    const tickplume_table_t more = {room, sizeof room};
    CHECK(tickplume_table_loads(lent(&most), TICKPLUME_MOST_BLOCKS).refusal.kind == TICKPLUME_NOT_REFUSED);
    CHECK(tickplume_table_loads(lent(&most), TICKPLUME_MOST_BLOCKS + 1).refusal.kind == TICKPLUME_REFUSED_TOO_MANY_BLOCKS);
    CHECK(word_of(tickplume_table_judge(more).refusal) == refused(10, TICKPLUME_MOST_BYTES - 3));
    CHECK(building(TICKPLUME_MOST_ENGINES, &duty, 1, ROOM) == 0 && building(TICKPLUME_MOST_ENGINES + 1, &duty, 1, ROOM) == refused(1, 0));
    duty.period++;
    CHECK(building(1, &duty, 1, ROOM) == refused(4, 0));
    duty.service = duty.period = TICKPLUME_MOST_TICKS;
    CHECK(building_in(1, &duty, 1, TICKPLUME_MOST_TICKS, ROOM) == 0 && building_in(1, &duty, 1, 1, ROOM) == 0);
    CHECK(building_in(1, &duty, 1, TICKPLUME_MOST_TICKS + 1, ROOM) == refused(24, 0));
    for (int i = 0; i < TICKPLUME_MOST_DUTIES; i++) half[i].service = 33, half[i].period = 67;
    CHECK(building(TICKPLUME_MOST_ENGINES, half, TICKPLUME_MOST_DUTIES, TICKPLUME_MOST_BYTES) == 0);
}

/* The longest plan of shares needs every entry that the header names. */
static void limits_of_shares(void) {
    static uint32_t allotments[TICKPLUME_MOST_ALLOTMENTS];
    tickplume_duty_t duties[TICKPLUME_MOST_DUTIES];
    tickplume_shares_t plan;
    for (uint32_t i = 0; i < TICKPLUME_MOST_DUTIES; i++) {
        duties[i].service = i % 2 ? 35 : 1;
        duties[i].period = i % 2 ? 70 * TICKPLUME_MOST_SHARE_BLOCKS : 70;
    }
    plan = tickplume_shares_build(1, duties, TICKPLUME_MOST_DUTIES, allotments, TICKPLUME_MOST_ALLOTMENTS);
    CHECK(word_of(plan.refusal) == 0);
    CHECK(plan.entries == TICKPLUME_MOST_ALLOTMENTS && plan.blocks == TICKPLUME_MOST_SHARE_BLOCKS && plan.block_length == 70);
    CHECK(sharing(1, duties, TICKPLUME_MOST_DUTIES, 0) == refused(8, TICKPLUME_MOST_ALLOTMENTS));
    duties[1].period = 70 * (TICKPLUME_MOST_SHARE_BLOCKS + 1);
    CHECK(sharing(1, duties, TICKPLUME_MOST_DUTIES, 0) == refused(22, 0));
}

int main(void) {
    words();
    numbers();
    tables();
    lists_by_hand();
    idle();
    duty_sets();
    many_duties();
    null_lists();
    entries_needed();
    short_first();
    order();
    order_of_lengths();
    limits_of_tables();
    limits_of_shares();
    for (unsigned number = 0; number < 256; number++)
        if (named(number) && number != TICKPLUME_REFUSED_TEXT_FAULT) CHECK(met[number] > 0);
    if (failures) printf("%lu of %lu checks failed\n", TICKPLUME_CAST(unsigned long, failures), TICKPLUME_CAST(unsigned long, checks));
    return failures != 0;
}
