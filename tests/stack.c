/* How much stack the calls use: each is called in a thread whose stack was painted below the caller, and what is no longer paint afterwards
 * was used. The table has 128 runs, as many as a table may have; the plan of shares has 64 duties and 4,096 blocks, as many as it may have;
 * the table that is built has 64 duties on 32 engines. The last three are typed calls. Ends with an error where a call uses 16 KiB or more,
 * or is refused. */
#define _POSIX_C_SOURCE 200809L
#define _DEFAULT_SOURCE
#include <pthread.h>
#include <stdio.h>
#include <string.h>
#include <sys/mman.h>

#include "tickplume.h"

enum { STACK = 1 << 18, PAINT = 0xa5, GAP = 256, LIMIT = 16 << 10 };

static uint8_t bytes[TICKPLUME_MOST_BYTES], room[TICKPLUME_MOST_BYTES];
static uint64_t state[TICKPLUME_STATE], answer[4], refused;
static uint32_t services[64], periods[64], halves[64], wholes[64], allotments[TICKPLUME_MOST_ALLOTMENTS];
static tickplume_duty_t half_duties[64], share_duties[64];
static size_t length, depth;
static volatile uint8_t *stack;

static uint8_t *put(uint8_t *at, uint32_t value, int width) {
    for (; width; width--, value >>= 8) *at++ = (uint8_t)value;
    return at;
}

/* One engine, 64 duties of 2 ticks in every 128: each duty has two runs of one unit. */
static size_t fill(void) {
    uint8_t *at = put(put(put(put(bytes, 1, 1), 128, 4), 1, 1), 64, 1);
    for (int i = 0; i < 64; i++) at = put(put(put(at, 2, 1), 2, 4), 128, 4);
    for (uint32_t k = 0; k < 128; k++) at = put(put(put(put(put(at, 3, 1), 0, 1), k % 64, 1), k, 4), 1, 4);
    return (size_t)(put(put(at, 4, 1), 128, 2) - bytes);
}

/* 64 duties of 33 ticks in every 67, for 32 engines; and 64 for one engine, every second with a period of all 4,096 blocks. */
static void fill_duties(void) {
    for (int i = 0; i < 64; i++) {
        half_duties[i].service = halves[i] = 33;
        half_duties[i].period = wholes[i] = 67;
        share_duties[i].service = services[i] = i % 2 ? 35 : 1;
        share_duties[i].period = periods[i] = i % 2 ? 70 * TICKPLUME_MOST_SHARE_BLOCKS : 70;
    }
}

static tickplume_table_t table(void) {
    const tickplume_table_t lent = {bytes, length};
    return lent;
}

static uint64_t build(void) { return tickplume_build(32, halves, 64, wholes, 64, 0, room, sizeof room, answer, 1); }
static uint64_t judge(void) { return tickplume_judge(bytes, length, answer, 4); }
static uint64_t question(void) { return tickplume_question(bytes, length, 0, UINT64_MAX, answer, 2); }
static uint64_t start(void) { return tickplume_start(bytes, length, UINT64_MAX - 2, state, TICKPLUME_STATE); }
static uint64_t row(void) { return tickplume_row(bytes, length, state, TICKPLUME_STATE, 0, answer, 1); }
static uint64_t next(void) { return tickplume_next(bytes, length, state, TICKPLUME_STATE); }
static uint64_t count(void) { return tickplume_count(bytes, length, 1000, answer, 1); }
static uint64_t shares(void) {
    const uint64_t word = tickplume_shares(1, services, 64, periods, 64, allotments, TICKPLUME_MOST_ALLOTMENTS, answer, 3);
    return word | (answer[0] != TICKPLUME_MOST_ALLOTMENTS);
}
static uint64_t share_at(void) { return tickplume_share_at(1, services, 64, periods, 64, 0, UINT64_MAX, answer, 1); }
static uint64_t typed_build(void) { return tickplume_table_build(32, half_duties, 64, 0, room, sizeof room).refusal.kind; }
static uint64_t typed_judge(void) { return tickplume_table_judge(table()).refusal.kind; }
static uint64_t typed_shares(void) {
    return tickplume_shares_build(1, share_duties, 64, allotments, TICKPLUME_MOST_ALLOTMENTS).refusal.kind;
}

typedef struct call_t { const char *name; uint64_t (*call)(void); } call_t;

/* Paints what is well below this function's own frame, calls, and looks how deep the paint was touched. */
static void *run(void *call) {
    uint8_t here = 0;
    const size_t top = (size_t)((uintptr_t)&here - (uintptr_t)stack);
    for (size_t i = 0; i < top - GAP; i++) stack[i] = PAINT;
    refused |= ((const call_t *)call)->call();
    for (depth = top; stack[top - depth] == PAINT; depth--);
    return call;
}

/* The bytes below its caller that a call has used; 0 where there is no thread. */
static size_t used(call_t *call) {
    void *lent = mmap(NULL, STACK, PROT_READ | PROT_WRITE, MAP_PRIVATE | MAP_ANONYMOUS, -1, 0);
    pthread_attr_t how;
    pthread_t thread;
    if (lent == MAP_FAILED) return 0;
    stack = (volatile uint8_t *)lent;
    if (pthread_attr_init(&how) || pthread_attr_setstack(&how, lent, STACK) || pthread_create(&thread, &how, run, call)) return 0;
    pthread_join(thread, NULL);
    munmap(lent, STACK);
    return depth;
}

int main(void) {
    static call_t calls[] = {
        {"build", build}, {"judge", judge}, {"question", question}, {"start", start}, {"row", row}, {"next", next}, {"count", count},
        {"shares", shares}, {"share_at", share_at}, {"table_build", typed_build}, {"table_judge", typed_judge},
        {"shares_build", typed_shares},
    };
    int failed = 0;
    length = fill();
    fill_duties();
    printf("stack, bytes:");
    for (size_t i = 0; i < sizeof calls / sizeof *calls; i++) {
        refused |= calls[i].call(); /* once before, so that finding memcpy at its first use is not measured */
        const size_t bytes_used = used(&calls[i]);
        printf(" %s %zu%s", calls[i].name, bytes_used, i + 1 < sizeof calls / sizeof *calls ? "," : "\n");
        failed |= bytes_used == 0 || bytes_used >= LIMIT;
    }
    return failed || refused != 0;
}
