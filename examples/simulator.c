/* A simulator's use of Tickplume: build a plan, dispatch a few blocks, ask who runs when, count the loads. Prints what it finds.
 *
 *     cc -Iinclude examples/simulator.c -Ltarget/native -ltickplume -o simulator
 */
#include <inttypes.h>
#include <stdio.h>

#include "tickplume.h"

/* Prints a refusal's number and place, and on stderr what they mean. */
static int refused(const char *call, tickplume_refusal_t refusal) {
    const char *place = tickplume_place_is(refusal.kind);
    printf("%s refused %d %" PRIu64 "\n", call, (int)refusal.kind, refusal.place);
    fprintf(stderr, "%s: %s", call, tickplume_meaning(refusal.kind));
    if (*place) fprintf(stderr, " (%s %" PRIu64 ")", place, refusal.place);
    fprintf(stderr, "\n");
    return 1;
}

/* Which row each engine has, block after block. */
static int dispatch(tickplume_table_t table, uint32_t engines) {
    tickplume_dispatcher_t dispatcher;
    tickplume_refusal_t refusal = tickplume_dispatcher_start(&dispatcher, table, 0);
    if (refusal.kind) return refused("start", refusal);
    for (int block = 0; block < 4; block++) {
        printf("block %" PRIu64 ":", tickplume_dispatcher_block(&dispatcher));
        for (uint32_t engine = 0; engine < engines; engine++) {
            tickplume_row_reply_t reply = tickplume_dispatcher_row(&dispatcher, table, tickplume_engine(engine));
            if (reply.refusal.kind) return refused("row", reply.refusal);
            printf(" engine %" PRIu32 " has row %" PRIu32, engine, reply.row.number);
        }
        printf("\n");
        refusal = tickplume_dispatcher_next(&dispatcher, table);
        if (refusal.kind) return refused("next", refusal);
    }
    return 0;
}

/* What each engine does, tick after tick. */
static int ask(tickplume_table_t table, uint32_t engines) {
    for (uint32_t engine = 0; engine < engines; engine++) {
        printf("engine %" PRIu32 ":", engine);
        for (uint64_t tick = 0; tick < 12; tick++) {
            tickplume_reply_t reply = tickplume_table_at(table, tickplume_engine(engine), tick);
            if (reply.refusal.kind) return refused("question", reply.refusal);
            if (reply.duty == TICKPLUME_NONE)
                printf(" -");
            else
                printf(" %" PRIu32, reply.duty);
        }
        printf("\n");
    }
    return 0;
}

/* The same for a simulator that needs every engine at every tick: the rows once a block, then the runs of each engine's row. Only the start
 * of a block judges the table. The direct question in the innermost loop is there to show that it agrees, and may be left out. */
static int run_blocks(tickplume_table_t table, tickplume_reading_t reading) {
    tickplume_dispatcher_t dispatcher;
    tickplume_row_t rows[TICKPLUME_MOST_ENGINES];
    for (uint64_t block = 0; block < 3; block++) {
        tickplume_refusal_t refusal = tickplume_dispatcher_start(&dispatcher, table, block);
        if (refusal.kind) return refused("start", refusal);
        tickplume_dispatcher_rows(&dispatcher, rows);
        for (uint32_t engine = 0; engine < reading.engines; engine++) {
            for (uint32_t k = 0; k < reading.runs; k++) {
                const tickplume_run_t run = tickplume_table_run(table, k);
                if (run.row.number != rows[engine].number) continue;
                for (uint64_t tick = block * reading.block_length + run.first, end = tick + run.length; tick < end; tick++)
                    if (tickplume_table_at(table, tickplume_engine(engine), tick).duty != run.duty) return printf("another duty\n");
            }
        }
    }
    return 0;
}

int main(void) {
    /* Four duties of 3 ticks in every 4, on three engines. Two of them are split over two rows, so the rows go round all engines. */
    const tickplume_duty_t duties[] = {{3, 4}, {3, 4}, {3, 4}, {3, 4}};
    uint8_t room[TICKPLUME_MOST_BYTES];

    /* 0: the longest blocks that there are, here of 4 ticks, the periods' greatest common divisor. */
    tickplume_built_t built = tickplume_table_build(3, duties, 4, 0, room, sizeof room);
    if (built.refusal.kind) return refused("build", built.refusal);
    tickplume_reading_t reading = tickplume_table_judge(built.table);
    if (reading.refusal.kind) return refused("judge", reading.refusal);
    printf("block length %" PRIu32 ", engines %" PRIu32 ", ", reading.block_length, reading.engines);
    printf("duties %" PRIu32 ", runs %" PRIu32 "\n", reading.duties, reading.runs);

    if (dispatch(built.table, reading.engines) || ask(built.table, reading.engines) || run_blocks(built.table, reading)) return 1;

    tickplume_loads_t loads = tickplume_table_loads(built.table, TICKPLUME_MOST_BLOCKS);
    if (loads.refusal.kind) return refused("count", loads.refusal);
    printf("loads in %" PRIu64 " blocks: %" PRIu64 "\n", TICKPLUME_MOST_BLOCKS, loads.loads);

    /* A dispatcher that was changed by hand is refused, and so is an engine that is not there. */
    tickplume_dispatcher_t dispatcher;
    tickplume_dispatcher_start(&dispatcher, built.table, 4);
    dispatcher.state[1] += 1;
    refused("row", tickplume_dispatcher_row(&dispatcher, built.table, tickplume_engine(0)).refusal);
    refused("question", tickplume_table_at(built.table, tickplume_engine(3), 0).refusal);
    return 0;
}
