/* A simulator's use of plans of shares: duties whose share of a block is not whole get other numbers of units from block to block, by
 * algorithm SA2 of Khemka and Shyamasundar. Prints what it finds: table 3 of their paper block by block, who runs when, what each duty had,
 * and sets of duties that are refused.
 *
 *     cc -Iinclude examples/shares.c -Ltarget/native -ltickplume -o shares
 */
#include <inttypes.h>
#include <stdio.h>

#include "tickplume.h"

static uint32_t allotments[TICKPLUME_MOST_ALLOTMENTS];

/* Prints a refusal's number and place. */
static int refused(const char *call, tickplume_refusal_t refusal) {
    printf("%s refused %d %" PRIu64 "\n", call, (int)refusal.kind, refusal.place);
    return 1;
}

/* Six duties, service and period, on three engines. */
static const tickplume_duty_t duties[6] = {{6, 10}, {11, 20}, {23, 30}, {6, 20}, {5, 30}, {37, 60}};

/* What each engine does in the first two blocks, and at the same time what each duty has until all begins anew. Engine i keeps row i. */
static int ask(uint64_t block_length, uint64_t ticks) {
    uint64_t had[6] = {0, 0, 0, 0, 0, 0};
    for (uint32_t engine = 0; engine < 3; engine++) {
        printf("engine %" PRIu32 ":", engine);
        for (uint64_t tick = 0; tick < ticks; tick++) {
            tickplume_share_reply_t reply = tickplume_shares_at(3, duties, 6, tickplume_engine(engine), tick);
            if (reply.refusal.kind) return refused("share_at", reply.refusal);
            if (reply.duty != TICKPLUME_NONE) had[reply.duty] += 1;
            if (tick >= 2 * block_length) continue;
            if (reply.duty == TICKPLUME_NONE)
                printf(" -");
            else
                printf(" %" PRIu32, reply.duty);
        }
        printf("\n");
    }
    for (int i = 0; i < 6; i++) {
        printf("duty %d: %" PRIu64 " of %" PRIu64 " ticks", i, had[i], ticks);
        printf(", %" PRIu32 " in every %" PRIu32 "\n", duties[i].service, duties[i].period);
    }
    return 0;
}

/* The paper's table 3. */
static int table_3(void) {
    tickplume_shares_t shares = tickplume_shares_build(3, duties, 6, allotments, TICKPLUME_MOST_ALLOTMENTS);
    if (shares.refusal.kind) return refused("shares", shares.refusal);
    printf("block length %" PRIu32 ", blocks %" PRIu32 ", entries %zu\n", shares.block_length, shares.blocks, shares.entries);
    for (uint32_t block = 0; block < shares.blocks; block++) {
        printf("block %" PRIu32 ":", block);
        for (uint32_t duty = 0; duty < 6; duty++) printf(" %" PRIu32, allotments[block * 6 + duty]);
        printf("\n");
    }
    if (ask(shares.block_length, (uint64_t)shares.blocks * shares.block_length)) return 1;

    /* After the common multiple it goes on from the first block; any tick may be asked. */
    const uint64_t asked[] = {0, 9, 10, 59, 60, 69, 70, UINT64_MAX};
    for (int k = 0; k < 8; k++) {
        tickplume_share_reply_t reply = tickplume_shares_at(3, duties, 6, tickplume_engine(0), asked[k]);
        if (reply.refusal.kind) return refused("share_at", reply.refusal);
        printf("engine 0 at tick %" PRIu64 ": duty %" PRIu32 "\n", asked[k], reply.duty);
    }

    /* One entry too few: the refusal says how many are needed. And an engine that is not there. */
    refused("shares", tickplume_shares_build(3, duties, 6, allotments, 35).refusal);
    refused("share_at", tickplume_shares_at(3, duties, 6, tickplume_engine(3), 0).refusal);
    return 0;
}

/* What is said of a set of duties on so many engines, by both calls. */
static void say(const char *name, uint32_t engines, const tickplume_duty_t *set, size_t length) {
    printf("%s: %" PRIu32 " engine%s,", name, engines, engines == 1 ? "" : "s");
    for (size_t i = 0; i < length; i++) printf(" %" PRIu32 "/%" PRIu32, set[i].service, set[i].period);
    printf("\n  ");
    tickplume_shares_t shares = tickplume_shares_build(engines, set, length, allotments, TICKPLUME_MOST_ALLOTMENTS);
    if (shares.refusal.kind)
        refused("shares", shares.refusal);
    else
        printf("shares of %" PRIu32 " blocks\n", shares.blocks);
    tickplume_share_reply_t reply = tickplume_shares_at(engines, set, length, tickplume_engine(0), 0);
    if (reply.refusal.kind) {
        printf("  ");
        refused("share_at", reply.refusal);
    }
}

int main(void) {
    if (table_3()) return 1;

    /* A small set (docs/SHARES.md) for which SA2's steps give a duty fewer than 0 units: 1 0 0, then 0 1 0, then 1 -1 1. Its shares' parts
     * that are not whole add up to 1, which the paper's theorem 3.4 asks for. With the duties in another order there is a plan. */
    const tickplume_duty_t below[] = {{1, 2}, {1, 6}, {1, 3}}, other_order[] = {{1, 2}, {1, 3}, {1, 6}};
    say("a duty below 0", 1, below, 3);
    say("in another order", 1, other_order, 3);

    /* One in which a block is too full and no duty is below 0. */
    const tickplume_duty_t too_full[] = {{2, 3}, {2, 3}, {3, 4}, {11, 12}};
    say("a block too full", 3, too_full, 4);

    /* One in which each duty needs at most T - 1 units of a block, which the paper's theorem 3.3 asks for; it meets theorem 3.4
     * too. */
    const tickplume_duty_t theorems[] = {{3, 6}, {1, 18}, {4, 9}};
    say("theorems 3.3 and 3.4", 1, theorems, 3);

    /* Blocks of 10. */
    const tickplume_duty_t below_10[] = {{9, 20}, {1, 60}, {16, 30}};
    say("a duty below 0, blocks of 10", 1, below_10, 3);
    const tickplume_duty_t too_full_10[] = {{28, 30}, {119, 120}, {1, 20}, {1, 20}, {117, 120}};
    say("a block too full, blocks of 10", 3, too_full_10, 5);

    /* Refusals that stand before: more than 4,096 blocks, and more than the engines can serve. */
    const tickplume_duty_t most[] = {{1, 4096}, {1, 1}}, more[] = {{1, 4097}, {1, 1}}, by_far[] = {{1, 1000000}, {1, 999999}};
    say("4,096 blocks, and too much for one engine", 1, most, 2);
    say("4,096 blocks", 2, most, 2);
    say("4,097 blocks", 1, more, 2);
    say("too many blocks by far", 1, by_far, 2);
    return 0;
}
