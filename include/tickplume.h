/* Tickplume: block plans for packet engines, proved down to the byte.
 *
 * A plan serves periodic duties on up to 32 engines: a duty has `service` ticks in each period of `period` ticks. The plan is made for one
 * block of ticks, by algorithm SA1 of Khemka and Shyamasundar; its ROWS move from ENGINE to engine at each block. A row is a line of the
 * plan, an engine is the hardware: what a simulator wants to know is an engine's, and only the library turns one into the other. How many
 * ticks a block has is asked of the builder: any number that divides every period, or 0 for the greatest such number.
 *
 * This header has the calls twice. Part 1 is what the library exports: numbers and lists of numbers. Part 2 is the same calls with types,
 * inline: an engine and a row are structs that C keeps apart, and each answer is a struct of its own. Programs are meant to use part 2;
 * part 1 is for other languages' bindings. It is for C99 and C++11 and later; C++ has tickplume.hpp besides.
 *
 * What holds for every call:
 * - It takes whatever numbers and bytes arrive, ends, and answers or refuses. A refused call changes no byte of the caller's. Numbers
 *   wider than a parameter are cut by C before the call.
 * - If several refusals apply, the lowest number is told, at the lowest place that has it. Three things differ: 4 and 5 are looked for duty
 *   by duty, 4 before 5; 24 is looked for after 5 and before 6; and the two calls for plans of shares have the order that stands with them.
 *   255 comes before all others.
 * - A call writes over the front of what was lent to it. Bytes and entries past those written stay.
 * - Threads: no call keeps anything for the next one, so any number may run at once, on buffers that no other call is writing.
 * - Heap: none is used. From outside the library wants memcpy and memset at the most.
 * - Stack: below 8 KiB as measured on x86-64, also through part 2; the library's tests fail at 16 KiB.
 * - A call that takes a table and may refuse judges it each time, which is most of its time; it grows with the duties and the runs. Only
 *   where one duty has many runs on many rows it may take longer, with 128 runs seven times as long.
 */
#ifndef TICKPLUME_H
#define TICKPLUME_H

#include <stddef.h>
#include <stdint.h>

/* For this header alone: its functions are one and the same in every file of a C++ program, and its casts pass -Wold-style-cast. */
#ifdef __cplusplus
#define TICKPLUME_INLINE inline
#define TICKPLUME_CAST(type, value) static_cast<type>(value)
#else
#define TICKPLUME_INLINE static inline
#define TICKPLUME_CAST(type, value) ((type)(value))
#endif

#define TICKPLUME_VERSION "0.2.0"
#define TICKPLUME_VERSION_MAJOR 0
#define TICKPLUME_VERSION_MINOR 2
#define TICKPLUME_VERSION_PATCH 0

/* ---- Limits ---- */

#define TICKPLUME_MOST_ENGINES 32
#define TICKPLUME_MOST_DUTIES 64
#define TICKPLUME_MOST_RUNS 128
#define TICKPLUME_MOST_TICKS 1000000                    /* the longest period */
#define TICKPLUME_MOST_BLOCKS UINT64_C(1000000000000)   /* that a count of loads may span */
#define TICKPLUME_MOST_BYTES 1994                       /* of a table that the builder writes or the judge accepts */
#define TICKPLUME_MOST_SHARE_BLOCKS 4096                /* up to the periods' least common multiple, in a plan of shares */
#define TICKPLUME_MOST_ALLOTMENTS 262144                /* entries of its allotments: as many blocks for each of 64 duties */

/* ---- Refusals ---- */

/* Every refusal: its name, its number, what its place is ("" where it names none and is 0), and its meaning. OVERLOAD means that no schedule
 * whatever serves the duties on so many engines, or on fewer; no other refusal means that (docs/CAPACITY.md in the repository). */
#define TICKPLUME_REFUSALS(REFUSAL) \
    REFUSAL(ENGINES_RANGE, 1, "", "the number of engines is not between 1 and 32") \
    REFUSAL(LISTS_DIFFER, 2, "", "the lists of services and periods differ in length") \
    REFUSAL(DUTIES_RANGE, 3, "", "the number of duties is not between 1 and 64") \
    REFUSAL(PERIOD_RANGE, 4, "duty", "a duty's period is not between 1 and 1,000,000") \
    REFUSAL(SERVICE_RANGE, 5, "duty", "a duty's service is not between 1 and its period") \
    REFUSAL(SLICE_NOT_WHOLE, 6, "duty", "a duty's share of a block is not a whole number of ticks") \
    REFUSAL(OVERLOAD, 7, "", "the duties need more than the engines can serve") \
    REFUSAL(NO_ROOM, 8, "needed", "what was lent is shorter than what is to be written") \
    REFUSAL(TEXT_FAULT, 9, "line", "a line of the plan program's input is faulty, or (line 0) there are more than 4,096 bytes") \
    REFUSAL(TABLE_FORM, 10, "byte", "the bytes are not in the form of a table") \
    REFUSAL(BLOCK_LENGTH, 11, "", "the table's block length does not divide every period") \
    REFUSAL(TABLE_SLICE_NOT_WHOLE, 12, "duty", "a duty's share of a block in the table is not a whole number of ticks") \
    REFUSAL(RUN_ORDER, 13, "run", "a run does not stand after its forerunner by row and first unit") \
    REFUSAL(RUN_SHARES_UNIT, 14, "run", "a run shares a unit with an earlier run of its row") \
    REFUSAL(RUN_JOINS, 15, "run", "a run starts where one of the same row and duty stops") \
    REFUSAL(DUTY_ON_TWO_ROWS, 16, "run", "a run shares a unit with an earlier run of its duty on another row") \
    REFUSAL(RUNS_NOT_SLICE, 17, "duty", "a duty's runs do not add up to its share of a block") \
    REFUSAL(NO_SUCH_ENGINE, 18, "", "there is no such engine") \
    REFUSAL(TOO_MANY_BLOCKS, 19, "", "a count of loads may span at most 1,000,000,000,000 blocks") \
    REFUSAL(STATE_NOT_ITS_BLOCKS, 20, "", "the dispatcher's state is not the one for its block") \
    REFUSAL(LAST_BLOCK, 21, "", "the dispatcher is at the last block, 2^64 - 1") \
    REFUSAL(TOO_MANY_SHARE_BLOCKS, 22, "", "there are more than 4,096 blocks up to the periods' least common multiple") \
    REFUSAL(NO_SHARE_PLAN, 23, "block", "SA2 would give a duty fewer than 0 units, or a block more units than the engines have") \
    REFUSAL(WANTED_LENGTH, 24, "", "the wanted block length does not divide every period") \
    REFUSAL(SHORT, 255, "entries needed", "the lent answer or state is too short")

/* Their names: TICKPLUME_REFUSED_ENGINES_RANGE is 1, and so on. Later versions may add some, so a switch wants a default. The library never
 * tells 9, which is the plan program's; 2 and 255 come from part 1 alone. */
typedef enum tickplume_kind_t {
    TICKPLUME_NOT_REFUSED = 0,
#define TICKPLUME_NAMED(name, number, place, meaning) TICKPLUME_REFUSED_##name = number,
    TICKPLUME_REFUSALS(TICKPLUME_NAMED)
#undef TICKPLUME_NAMED
} tickplume_kind_t;

/* A refusal's meaning in words, without its place. */
TICKPLUME_INLINE const char *tickplume_meaning(tickplume_kind_t kind) {
    switch (TICKPLUME_CAST(int, kind)) {
#define TICKPLUME_SAID(name, number, place, meaning) case number: return meaning;
        TICKPLUME_REFUSALS(TICKPLUME_SAID)
#undef TICKPLUME_SAID
    case 0: return "not refused";
    default: return "a number that this version does not list";
    }
}

/* What a refusal's place is: "duty", "run", "needed" and so on; "" where it names none. Duties, runs, bytes and blocks count from 0, lines
 * from 1. */
TICKPLUME_INLINE const char *tickplume_place_is(tickplume_kind_t kind) {
    switch (TICKPLUME_CAST(int, kind)) {
#define TICKPLUME_PLACED(name, number, place, meaning) case number: return place;
        TICKPLUME_REFUSALS(TICKPLUME_PLACED)
#undef TICKPLUME_PLACED
    default: return "";
    }
}

/* ---- Part 1: the library's calls, as numbers ----
 *
 * Each returns 0, or a refusal as one word: its number in the low eight bits, its place above them. A list passes as a pointer and the
 * number of its entries. The pointer must be valid for that many entries, and not null even where there are none. What a call writes must
 * not overlap anything else that it is passed. */

#ifdef __cplusplus
extern "C" {
#endif

#define TICKPLUME_NUMBER(word) TICKPLUME_CAST(unsigned, (word) & 0xff)
#define TICKPLUME_PLACE(word) (TICKPLUME_CAST(uint64_t, word) >> 8)

/* The entries that each call wants lent for its answer, and for a dispatcher's state. With fewer it is refused with 255 (place: the entries
 * needed). */
#define TICKPLUME_BUILD_ANSWER 1
#define TICKPLUME_JUDGE_ANSWER 4
#define TICKPLUME_QUESTION_ANSWER 2
#define TICKPLUME_ROW_ANSWER 1
#define TICKPLUME_COUNT_ANSWER 1
#define TICKPLUME_SHARES_ANSWER 3
#define TICKPLUME_SHARE_AT_ANSWER 1
#define TICKPLUME_STATE 33
#define TICKPLUME_SHORT 255

/* The mark for an idle engine in tickplume_question's and tickplume_share_at's answers. */
#define TICKPLUME_IDLE UINT64_MAX

/* Builds SA1's plan of the duties (services[i], periods[i]) into table, in blocks of block_length ticks, which has to divide every period;
 * 0 asks for the greatest common divisor of the periods. Of each block of T ticks a duty has T * service / period, which has to be whole:
 * in shorter blocks it runs more often, and not as long at a time.
 * answer[0]: the table's length in bytes.
 * Refusals: 1 to 5, 24, 6 to 8, in this order. Of 8 the place is the bytes needed. */
uint64_t tickplume_build(uint32_t engines, const uint32_t *services, size_t services_len, const uint32_t *periods, size_t periods_len,
                         uint32_t block_length, uint8_t *table, size_t table_len, uint64_t *answer, size_t answer_len);

/* Judges any bytes: are they a table, whoever wrote it?
 * answer[0..3]: block length, engines, duties, runs.
 * Refusals: 10 to 17. */
uint64_t tickplume_judge(const uint8_t *table, size_t table_len, uint64_t *answer, size_t answer_len);

/* What does ENGINE do at the tick? Any tick.
 * answer[0]: the ROW that the engine runs in the tick's block; answer[1]: the duty, or TICKPLUME_IDLE.
 * Refusals: 10 to 18. */
uint64_t tickplume_question(const uint8_t *table, size_t table_len, uint32_t engine, uint64_t tick, uint64_t *answer, size_t answer_len);

/* The dispatcher's state for a block. Any block.
 * state[0]: the block; state[1 + e]: the ROW of ENGINE e, 0 past the last engine.
 * Refusals: 10 to 17. */
uint64_t tickplume_start(const uint8_t *table, size_t table_len, uint64_t block, uint64_t *state, size_t state_len);

/* The ROW of ENGINE in the state's block.
 * answer[0]: the row.
 * Refusals: 10 to 18, 20. Where state and answer are both too short, the state's entries are told. */
uint64_t tickplume_row(const uint8_t *table, size_t table_len, const uint64_t *state, size_t state_len, uint32_t engine, uint64_t *answer,
                       size_t answer_len);

/* The state of the next block, in the place of this one.
 * Refusals: 10 to 17, 20, 21. */
uint64_t tickplume_next(const uint8_t *table, size_t table_len, uint64_t *state, size_t state_len);

/* The loads of the first blocks: how often an engine begins to run a duty that it did not run one tick before.
 * answer[0]: the loads.
 * Refusals: 10 to 17, 19. */
uint64_t tickplume_count(const uint8_t *table, size_t table_len, uint64_t blocks, uint64_t *answer, size_t answer_len);

/* A plan of shares is for duties whose share of a block, T * service / period, is not whole; T is the periods' greatest common divisor, and
 * no other length may be asked for. A duty gets other numbers of units from block to block, so there is no table: the plan is its
 * allotments, up to the periods' least common multiple, and goes on from the first again. ENGINE i keeps row i; nothing rotates. In a block
 * the duties' units lie one after the other: unit u of engine e is place e * T + u among them, and past the last there is idle time. */

/* SA2's allotments of the duties (services[i], periods[i]), block by block, within a block duty by duty:
 * allotments[block * duties + i] is how many units duty i has in the block.
 * answer[0]: the entries written, blocks times duties; answer[1]: the block length; answer[2]: the blocks.
 * Refusals: 1 to 5, 22, 7, 8, 23, in this order. Of 8 the place is the entries needed; to learn them, lend none. */
uint64_t tickplume_shares(uint32_t engines, const uint32_t *services, size_t services_len, const uint32_t *periods, size_t periods_len,
                          uint32_t *allotments, size_t allotments_len, uint64_t *answer, size_t answer_len);

/* What does ENGINE do at the tick in that plan? Any tick. It takes the time of going through all blocks, whatever the tick.
 * answer[0]: the duty, or TICKPLUME_IDLE.
 * Refusals: 1 to 5, 22, 7, 23, 18, in this order. */
uint64_t tickplume_share_at(uint32_t engines, const uint32_t *services, size_t services_len, const uint32_t *periods, size_t periods_len,
                            uint32_t engine, uint64_t tick, uint64_t *answer, size_t answer_len);

#ifdef __cplusplus
}
#endif

/* ---- Part 2: the same calls with types ----
 *
 * Every answer has a refusal. Where its kind is TICKPLUME_NOT_REFUSED, which is 0, the other fields hold the answer; otherwise lengths and
 * counts are 0, the table's bytes null, and duties and rows TICKPLUME_NONE. A null pointer is an empty list, whatever its length; a
 * dispatcher's pointer must not be null. Duties are copied onto the stack, some 530 bytes. */

typedef struct tickplume_engine_t { uint32_t number; } tickplume_engine_t; /* the hardware, from 0 */
typedef struct tickplume_row_t { uint32_t number; } tickplume_row_t;       /* a line of the plan, from 0 */
typedef struct tickplume_duty_t { uint32_t service, period; } tickplume_duty_t;
typedef struct tickplume_run_t { tickplume_row_t row; uint32_t duty, first, length; } tickplume_run_t; /* `length` units, from `first` on */
typedef struct tickplume_table_t { const uint8_t *bytes; size_t length; } tickplume_table_t; /* the caller's bytes, not a copy */
typedef struct tickplume_refusal_t { tickplume_kind_t kind; uint64_t place; } tickplume_refusal_t;

/* The number of no duty (the engine is idle, or the call was refused) and of no row (the call was refused). */
#define TICKPLUME_NONE UINT32_MAX

typedef struct tickplume_built_t { tickplume_refusal_t refusal; tickplume_table_t table; } tickplume_built_t;
typedef struct tickplume_reading_t { tickplume_refusal_t refusal; uint32_t block_length, engines, duties, runs; } tickplume_reading_t;
typedef struct tickplume_reply_t { tickplume_refusal_t refusal; uint32_t duty; tickplume_row_t row; } tickplume_reply_t;
typedef struct tickplume_row_reply_t { tickplume_refusal_t refusal; tickplume_row_t row; } tickplume_row_reply_t;
typedef struct tickplume_loads_t { tickplume_refusal_t refusal; uint64_t loads; } tickplume_loads_t;
typedef struct tickplume_shares_t { tickplume_refusal_t refusal; size_t entries; uint32_t block_length, blocks; } tickplume_shares_t;
typedef struct tickplume_share_reply_t { tickplume_refusal_t refusal; uint32_t duty; } tickplume_share_reply_t;

/* Which row each engine runs in a block: the state that tickplume_start writes. To store one, store its block, and start there again. */
typedef struct tickplume_dispatcher_t { uint64_t state[TICKPLUME_STATE]; } tickplume_dispatcher_t;

/* For the functions below alone: a word as a refusal, a list that is not null, an answered entry, and duties as two lists. A list of more
 * than 64 duties is as long as one of 65: both are refused with 3. */
TICKPLUME_INLINE tickplume_refusal_t tickplume_of_word(uint64_t word) {
    tickplume_refusal_t refusal;
    refusal.kind = TICKPLUME_CAST(tickplume_kind_t, TICKPLUME_NUMBER(word));
    refusal.place = TICKPLUME_PLACE(word);
    return refusal;
}

TICKPLUME_INLINE const uint8_t *tickplume_bytes_of(tickplume_table_t table) {
    static const uint8_t none = 0;
    return table.bytes ? table.bytes : &none;
}

TICKPLUME_INLINE size_t tickplume_length_of(tickplume_table_t table) {
    return table.bytes ? table.length : 0;
}

TICKPLUME_INLINE uint32_t tickplume_entry(uint64_t entry) {
    return entry < TICKPLUME_NONE ? TICKPLUME_CAST(uint32_t, entry) : TICKPLUME_NONE;
}

typedef struct tickplume_lists_t {
    uint32_t services[TICKPLUME_MOST_DUTIES + 1], periods[TICKPLUME_MOST_DUTIES + 1];
    size_t length;
} tickplume_lists_t;

TICKPLUME_INLINE void tickplume_lists_of(const tickplume_duty_t *duties, size_t duties_len, tickplume_lists_t *lists) {
    size_t i, most = TICKPLUME_MOST_DUTIES + 1;
    lists->length = !duties ? 0 : duties_len < most ? duties_len : most;
    for (i = 0; i < lists->length; i++) {
        lists->services[i] = duties[i].service;
        lists->periods[i] = duties[i].period;
    }
}

/* An engine by its number. */
TICKPLUME_INLINE tickplume_engine_t tickplume_engine(uint32_t number) {
    tickplume_engine_t engine;
    engine.number = number;
    return engine;
}

/* Builds SA1's plan of the duties into the room that is lent, and answers the table in it. TICKPLUME_MOST_BYTES are always enough. A block
 * has block_length ticks, which has to divide every period; 0 asks for the greatest common divisor of the periods.
 * Refusals: 1, 3 to 5, 24, 6 to 8, in this order. */
TICKPLUME_INLINE tickplume_built_t tickplume_table_build(uint32_t engines, const tickplume_duty_t *duties, size_t duties_len,
                                                         uint32_t block_length, uint8_t *room, size_t room_len) {
    tickplume_built_t built;
    tickplume_lists_t lists;
    uint8_t none = 0;
    uint64_t answer[TICKPLUME_BUILD_ANSWER] = {0};
    tickplume_lists_of(duties, duties_len, &lists);
    built.refusal = tickplume_of_word(tickplume_build(engines, lists.services, lists.length, lists.periods, lists.length, block_length,
                                                      room ? room : &none, room ? room_len : 0, answer, TICKPLUME_BUILD_ANSWER));
    built.table.bytes = built.refusal.kind ? NULL : room;
    built.table.length = TICKPLUME_CAST(size_t, answer[0]);
    return built;
}

/* Judges any bytes: are they a table, whoever wrote it? What it reads off them.
 * Refusals: 10 to 17. */
TICKPLUME_INLINE tickplume_reading_t tickplume_table_judge(tickplume_table_t table) {
    tickplume_reading_t reading;
    uint64_t answer[TICKPLUME_JUDGE_ANSWER] = {0};
    reading.refusal = tickplume_of_word(
        tickplume_judge(tickplume_bytes_of(table), tickplume_length_of(table), answer, TICKPLUME_JUDGE_ANSWER));
    reading.block_length = TICKPLUME_CAST(uint32_t, answer[0]);
    reading.engines = TICKPLUME_CAST(uint32_t, answer[1]);
    reading.duties = TICKPLUME_CAST(uint32_t, answer[2]);
    reading.runs = TICKPLUME_CAST(uint32_t, answer[3]);
    return reading;
}

/* For the two functions below alone: the record of a kind at an offset, or null; and four of its bytes as a number, the lowest first. */
TICKPLUME_INLINE const uint8_t *tickplume_record(tickplume_table_t table, uint8_t kind, size_t length, size_t offset) {
    const size_t bytes = tickplume_length_of(table);
    return offset <= bytes && length <= bytes - offset && table.bytes[offset] == kind ? table.bytes + offset : NULL;
}

TICKPLUME_INLINE uint32_t tickplume_number_at(const uint8_t *at) {
    return at[0] | TICKPLUME_CAST(uint32_t, at[1]) << 8 | TICKPLUME_CAST(uint32_t, at[2]) << 16 | TICKPLUME_CAST(uint32_t, at[3]) << 24;
}

/* Duty `number` of an accepted table, read off its bytes; service and period are 0 where there is no such duty. Nothing is judged. */
TICKPLUME_INLINE tickplume_duty_t tickplume_table_duty(tickplume_table_t table, uint32_t number) {
    tickplume_duty_t duty = {0, 0};
    const uint8_t *head = tickplume_record(table, 1, 7, 0), *record = NULL;
    if (head && number < head[6]) record = tickplume_record(table, 2, 9, 7 + 9 * TICKPLUME_CAST(size_t, number));
    if (record) {
        duty.service = tickplume_number_at(record + 1);
        duty.period = tickplume_number_at(record + 5);
    }
    return duty;
}

/* Run `number` of an accepted table, read off its bytes: they stand by row, then by first unit. Its length is 0, and row and duty are
 * TICKPLUME_NONE, where there is no such run. Nothing is judged. With tickplume_dispatcher_rows, once a
 * block, the runs tell what every engine does at every tick of it. */
TICKPLUME_INLINE tickplume_run_t tickplume_table_run(tickplume_table_t table, uint32_t number) {
    tickplume_run_t run = {{TICKPLUME_NONE}, TICKPLUME_NONE, 0, 0};
    const uint8_t *head = tickplume_record(table, 1, 7, 0), *record = NULL;
    if (head && number < TICKPLUME_MOST_RUNS)
        record = tickplume_record(table, 3, 11, 7 + 9 * TICKPLUME_CAST(size_t, head[6]) + 11 * TICKPLUME_CAST(size_t, number));
    if (record) {
        run.row.number = record[1];
        run.duty = record[2];
        run.first = tickplume_number_at(record + 3);
        run.length = tickplume_number_at(record + 7);
    }
    return run;
}

/* What does the engine do at the tick, and from which row? Any tick. Where it is idle the duty is TICKPLUME_NONE.
 * Refusals: 10 to 18. */
TICKPLUME_INLINE tickplume_reply_t tickplume_table_at(tickplume_table_t table, tickplume_engine_t engine, uint64_t tick) {
    tickplume_reply_t reply;
    uint64_t answer[TICKPLUME_QUESTION_ANSWER] = {TICKPLUME_NONE, TICKPLUME_IDLE};
    reply.refusal = tickplume_of_word(tickplume_question(tickplume_bytes_of(table), tickplume_length_of(table), engine.number, tick, answer,
                                                         TICKPLUME_QUESTION_ANSWER));
    reply.row.number = tickplume_entry(answer[0]);
    reply.duty = tickplume_entry(answer[1]);
    return reply;
}

/* The loads of the first blocks: how often an engine begins to run a duty that it did not run one tick before.
 * Refusals: 10 to 17, 19. */
TICKPLUME_INLINE tickplume_loads_t tickplume_table_loads(tickplume_table_t table, uint64_t blocks) {
    tickplume_loads_t loads;
    uint64_t answer[TICKPLUME_COUNT_ANSWER] = {0};
    loads.refusal = tickplume_of_word(
        tickplume_count(tickplume_bytes_of(table), tickplume_length_of(table), blocks, answer, TICKPLUME_COUNT_ANSWER));
    loads.loads = answer[0];
    return loads;
}

/* Sets a dispatcher to a block. Any block.
 * Refusals: 10 to 17; the dispatcher then stays as it was. */
TICKPLUME_INLINE tickplume_refusal_t tickplume_dispatcher_start(tickplume_dispatcher_t *dispatcher, tickplume_table_t table,
                                                                uint64_t block) {
    return tickplume_of_word(
        tickplume_start(tickplume_bytes_of(table), tickplume_length_of(table), block, dispatcher->state, TICKPLUME_STATE));
}

/* The dispatcher's block. */
TICKPLUME_INLINE uint64_t tickplume_dispatcher_block(const tickplume_dispatcher_t *dispatcher) {
    return dispatcher->state[0];
}

/* The rows of all engines in the dispatcher's block, into a list of TICKPLUME_MOST_ENGINES: rows[e] is engine e's, and row 0 past the last
 * engine. They are taken as they stand: nothing is judged. */
TICKPLUME_INLINE void tickplume_dispatcher_rows(const tickplume_dispatcher_t *dispatcher, tickplume_row_t rows[TICKPLUME_MOST_ENGINES]) {
    size_t e;
    for (e = 0; e < TICKPLUME_MOST_ENGINES; e++) rows[e].number = tickplume_entry(dispatcher->state[1 + e]);
}

/* The row that the engine runs in the dispatcher's block.
 * Refusals: 10 to 18, 20. */
TICKPLUME_INLINE tickplume_row_reply_t tickplume_dispatcher_row(const tickplume_dispatcher_t *dispatcher, tickplume_table_t table,
                                                                tickplume_engine_t engine) {
    tickplume_row_reply_t reply;
    uint64_t answer[TICKPLUME_ROW_ANSWER] = {TICKPLUME_NONE};
    reply.refusal = tickplume_of_word(tickplume_row(tickplume_bytes_of(table), tickplume_length_of(table), dispatcher->state,
                                                    TICKPLUME_STATE, engine.number, answer, TICKPLUME_ROW_ANSWER));
    reply.row.number = tickplume_entry(answer[0]);
    return reply;
}

/* Takes the dispatcher on to the next block.
 * Refusals: 10 to 17, 20, 21; the dispatcher then stays as it was. */
TICKPLUME_INLINE tickplume_refusal_t tickplume_dispatcher_next(tickplume_dispatcher_t *dispatcher, tickplume_table_t table) {
    return tickplume_of_word(tickplume_next(tickplume_bytes_of(table), tickplume_length_of(table), dispatcher->state, TICKPLUME_STATE));
}

/* SA2's allotments of the duties, for those whose share of a block is not whole: allotments[block * duties + i] is how many units duty i
 * has in the block. TICKPLUME_MOST_ALLOTMENTS entries are always enough; to learn how many are needed, lend none: they are 8's place.
 * Refusals: 1, 3 to 5, 22, 7, 8, 23, in this order. */
TICKPLUME_INLINE tickplume_shares_t tickplume_shares_build(uint32_t engines, const tickplume_duty_t *duties, size_t duties_len,
                                                           uint32_t *allotments, size_t allotments_len) {
    tickplume_shares_t shares;
    tickplume_lists_t lists;
    uint32_t none = 0;
    uint64_t answer[TICKPLUME_SHARES_ANSWER] = {0};
    tickplume_lists_of(duties, duties_len, &lists);
    shares.refusal = tickplume_of_word(tickplume_shares(engines, lists.services, lists.length, lists.periods, lists.length,
                                                        allotments ? allotments : &none, allotments ? allotments_len : 0, answer,
                                                        TICKPLUME_SHARES_ANSWER));
    shares.entries = TICKPLUME_CAST(size_t, answer[0]);
    shares.block_length = TICKPLUME_CAST(uint32_t, answer[1]);
    shares.blocks = TICKPLUME_CAST(uint32_t, answer[2]);
    return shares;
}

/* What does the engine do at the tick in that plan? Any tick. Where it is idle the duty is TICKPLUME_NONE. It takes the time of going
 * through all blocks, whatever the tick.
 * Refusals: 1, 3 to 5, 22, 7, 23, 18, in this order. */
TICKPLUME_INLINE tickplume_share_reply_t tickplume_shares_at(uint32_t engines, const tickplume_duty_t *duties, size_t duties_len,
                                                             tickplume_engine_t engine, uint64_t tick) {
    tickplume_share_reply_t reply;
    tickplume_lists_t lists;
    uint64_t answer[TICKPLUME_SHARE_AT_ANSWER] = {TICKPLUME_IDLE};
    tickplume_lists_of(duties, duties_len, &lists);
    reply.refusal = tickplume_of_word(tickplume_share_at(engines, lists.services, lists.length, lists.periods, lists.length, engine.number,
                                                         tick, answer, TICKPLUME_SHARE_AT_ANSWER));
    reply.duty = tickplume_entry(answer[0]);
    return reply;
}

#endif
