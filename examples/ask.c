/* ask: makes any call of the library from the command line and prints what it answers; ask --help lists the calls. The examples of
 * docs/FORMATS.md and docs/REFUSALS.md are its commands.
 *
 * It uses part 1 of the header, the raw calls: what it shows are lists of different lengths, answers that are too short and states made by
 * hand, which the typed calls of part 2 do not let through. Programs use part 2: see simulator.c.
 *
 * Status: 0 answered; 1 refused (`refused NUMBER PLACE` on standard output, in words on standard error); 2 wrong use; 4 the output could
 * not be written. */
#include <inttypes.h>
#include <stdio.h>
#include <stdlib.h>
#include <string.h>

#include "tickplume.h"

/* What one argument may hold: more than any call takes, so that too much can be shown. */
#define MOST_LISTED 128
#define MOST_LENT_BYTES 4096

typedef struct list_t { uint32_t entries[MOST_LISTED]; size_t length; } list_t;
typedef struct set_t { uint32_t engines; list_t services, periods; } set_t;
typedef struct state_t { uint64_t entries[MOST_LISTED]; size_t length; } state_t;
typedef struct bytes_t { uint8_t entries[MOST_LENT_BYTES]; size_t length; } bytes_t;

static uint64_t answer[TICKPLUME_STATE];
static uint8_t room[TICKPLUME_MOST_BYTES];
static uint32_t allotments[TICKPLUME_MOST_ALLOTMENTS];

/* ---- Arguments ---- */

static void wrong(const char *what, const char *argument) {
    fprintf(stderr, "ask: '%.60s': %s\n", argument, what);
    exit(2);
}

static int is_digit(char c) { return c >= '0' && c <= '9'; }

/* The number that stands at *at, in digits alone and without leading zeros; *at goes on past it. */
static uint64_t digits(const char **at, uint64_t most, const char *argument) {
    uint64_t value = 0;
    if (!is_digit((*at)[0]) || ((*at)[0] == '0' && is_digit((*at)[1])))
        wrong("a number is written in digits, without a leading zero", argument);
    for (; is_digit(**at); (*at)++) {
        uint64_t digit = (uint64_t)(**at - '0');
        if (digit > most || value > (most - digit) / 10) wrong("a number is too large here", argument);
        value = value * 10 + digit;
    }
    return value;
}

static uint64_t number(const char *argument, uint64_t most) {
    const char *at = argument;
    uint64_t value = digits(&at, most, argument);
    if (*at) wrong("one number is wanted here, with nothing after it", argument);
    return value;
}

static uint32_t number_32(const char *argument) { return (uint32_t)number(argument, UINT32_MAX); }

/* Numbers with commas between, or nothing at all. */
static state_t state_of(const char *argument, uint64_t most) {
    state_t state;
    const char *at = argument;
    state.length = 0;
    while (*at) {
        if (state.length == MOST_LISTED) wrong("a list may have at most 128 numbers here", argument);
        state.entries[state.length++] = digits(&at, most, argument);
        if (*at && (*at != ',' || !*++at)) wrong("a list is numbers with a comma between", argument);
    }
    return state;
}

static list_t list_of(const char *argument) {
    state_t wide = state_of(argument, UINT32_MAX);
    list_t list;
    size_t i;
    list.length = wide.length;
    for (i = 0; i < wide.length; i++) list.entries[i] = (uint32_t)wide.entries[i];
    return list;
}

/* Engines, services and periods, from three arguments. */
static set_t set_of(char **given) {
    set_t set;
    set.engines = number_32(given[0]);
    set.services = list_of(given[1]);
    set.periods = list_of(given[2]);
    return set;
}

static int is_blank(char c) { return c == ' ' || c == '\n'; }

static int hex(char c, const char *argument) {
    if (is_digit(c)) return c - '0';
    if (c >= 'a' && c <= 'f') return c - 'a' + 10;
    if (c >= 'A' && c <= 'F') return c - 'A' + 10;
    wrong("a byte is two hexadecimal digits", argument);
    return 0;
}

/* Bytes of two hexadecimal digits each, with or without blanks between bytes. */
static bytes_t bytes_of(const char *argument) {
    bytes_t bytes;
    const char *at = argument;
    bytes.length = 0;
    for (;;) {
        while (is_blank(*at)) at++;
        if (!*at) return bytes;
        if (bytes.length == MOST_LENT_BYTES) wrong("there may be at most 4096 bytes here", argument);
        bytes.entries[bytes.length++] = (uint8_t)(hex(at[0], argument) * 16 + hex(at[1], argument));
        at += 2;
    }
}

/* ---- The calls: each takes its arguments, their number and the entries that are lent for the answer, and returns the call's word ---- */

/* A line for each record, whose kind, the first byte, tells its length. The bytes are the builder's. */
static void print_records(const uint8_t *bytes, uint64_t length) {
    static const size_t lengths[] = {1, 7, 9, 11, 3};
    size_t left = 0;
    uint64_t i;
    for (i = 0; i < length; i++) {
        if (left == 0) left = lengths[bytes[i]];
        left--;
        printf("%02x%c", (unsigned)bytes[i], left ? ' ' : '\n');
    }
}

static uint64_t ask_build(char **given, int count, size_t lent) {
    set_t set = set_of(given);
    uint32_t block_length = count < 4 ? 0 : number_32(given[3]);
    size_t room_len = count < 5 ? sizeof room : (size_t)number(given[4], sizeof room);
    uint64_t word = tickplume_build(set.engines, set.services.entries, set.services.length, set.periods.entries, set.periods.length,
                                    block_length, room, room_len, answer, lent);
    if (!word) print_records(room, answer[0]);
    return word;
}

static uint64_t ask_judge(char **given, int count, size_t lent) {
    bytes_t table = bytes_of(given[0]);
    uint64_t word = tickplume_judge(table.entries, table.length, answer, lent);
    (void)count;
    if (!word) {
        printf("block length %" PRIu64 ", engines %" PRIu64, answer[0], answer[1]);
        printf(", duties %" PRIu64 ", runs %" PRIu64 "\n", answer[2], answer[3]);
    }
    return word;
}

static void print_duty(uint64_t duty) {
    if (duty == TICKPLUME_IDLE)
        printf("idle\n");
    else
        printf("duty %" PRIu64 "\n", duty);
}

static uint64_t ask_question(char **given, int count, size_t lent) {
    bytes_t table = bytes_of(given[0]);
    uint32_t engine = number_32(given[1]);
    uint64_t word = tickplume_question(table.entries, table.length, engine, number(given[2], UINT64_MAX), answer, lent);
    (void)count;
    if (!word) {
        printf("row %" PRIu64 ", ", answer[0]);
        print_duty(answer[1]);
    }
    return word;
}

static void print_state(const uint64_t *state) {
    int i;
    for (i = 0; i < TICKPLUME_STATE; i++) printf("%s%" PRIu64, i ? "," : "", state[i]);
    printf("\n");
}

static uint64_t ask_start(char **given, int count, size_t lent) {
    bytes_t table = bytes_of(given[0]);
    uint64_t word = tickplume_start(table.entries, table.length, number(given[1], UINT64_MAX), answer, lent);
    (void)count;
    if (!word) print_state(answer);
    return word;
}

static uint64_t ask_row(char **given, int count, size_t lent) {
    bytes_t table = bytes_of(given[0]);
    state_t state = state_of(given[1], UINT64_MAX);
    uint32_t engine = number_32(given[2]);
    uint64_t word = tickplume_row(table.entries, table.length, state.entries, state.length, engine, answer, lent);
    (void)count;
    if (!word) printf("row %" PRIu64 "\n", answer[0]);
    return word;
}

/* Nothing is lent beside the state. */
static uint64_t ask_next(char **given, int count, size_t lent) {
    bytes_t table = bytes_of(given[0]);
    state_t state = state_of(given[1], UINT64_MAX);
    uint64_t word = tickplume_next(table.entries, table.length, state.entries, state.length);
    (void)count, (void)lent;
    if (!word) print_state(state.entries);
    return word;
}

static uint64_t ask_count(char **given, int count, size_t lent) {
    bytes_t table = bytes_of(given[0]);
    uint64_t word = tickplume_count(table.entries, table.length, number(given[1], UINT64_MAX), answer, lent);
    (void)count;
    if (!word) printf("loads in %s blocks: %" PRIu64 "\n", given[1], answer[0]);
    return word;
}

static void print_allotments(uint64_t blocks, size_t duties) {
    uint64_t block;
    size_t duty;
    for (block = 0; block < blocks; block++) {
        printf("block %" PRIu64 ":", block);
        for (duty = 0; duty < duties; duty++) printf(" %" PRIu32, allotments[block * duties + duty]);
        printf("\n");
    }
}

static uint64_t ask_shares(char **given, int count, size_t lent) {
    set_t set = set_of(given);
    size_t entries = count < 4 ? TICKPLUME_MOST_ALLOTMENTS : (size_t)number(given[3], TICKPLUME_MOST_ALLOTMENTS);
    uint64_t word = tickplume_shares(set.engines, set.services.entries, set.services.length, set.periods.entries, set.periods.length,
                                     allotments, entries, answer, lent);
    if (!word) {
        printf("block length %" PRIu64 ", blocks %" PRIu64 ", entries %" PRIu64 "\n", answer[1], answer[2], answer[0]);
        print_allotments(answer[2], set.services.length);
    }
    return word;
}

static uint64_t ask_share_at(char **given, int count, size_t lent) {
    set_t set = set_of(given);
    uint32_t engine = number_32(given[3]);
    uint64_t tick = number(given[4], UINT64_MAX);
    uint64_t word = tickplume_share_at(set.engines, set.services.entries, set.services.length, set.periods.entries, set.periods.length,
                                       engine, tick, answer, lent);
    (void)count;
    if (!word) print_duty(answer[0]);
    return word;
}

/* ---- The command ---- */

typedef struct call_t {
    const char *name, *takes;
    int fewest, most;
    size_t lent; /* the entries that the call wants for its answer; ask start's is a state */
    uint64_t (*ask)(char **given, int count, size_t lent);
} call_t;

static const call_t calls[] = {
    {"build", "ENGINES SERVICES PERIODS [LENGTH [ROOM]]", 3, 5, TICKPLUME_BUILD_ANSWER, ask_build},
    {"judge", "BYTES", 1, 1, TICKPLUME_JUDGE_ANSWER, ask_judge},
    {"question", "BYTES ENGINE TICK", 3, 3, TICKPLUME_QUESTION_ANSWER, ask_question},
    {"start", "BYTES BLOCK", 2, 2, TICKPLUME_STATE, ask_start},
    {"row", "BYTES STATE ENGINE", 3, 3, TICKPLUME_ROW_ANSWER, ask_row},
    {"next", "BYTES STATE", 2, 2, 0, ask_next},
    {"count", "BYTES BLOCKS", 2, 2, TICKPLUME_COUNT_ANSWER, ask_count},
    {"shares", "ENGINES SERVICES PERIODS [ROOM]", 3, 4, TICKPLUME_SHARES_ANSWER, ask_shares},
    {"share_at", "ENGINES SERVICES PERIODS ENGINE TICK", 5, 5, TICKPLUME_SHARE_AT_ANSWER, ask_share_at},
};
static const size_t calls_len = sizeof calls / sizeof calls[0];

static void help(void) {
    size_t i;
    for (i = 0; i < calls_len; i++) printf("ask %s%s %s\n", calls[i].lent ? "[-a N] " : "", calls[i].name, calls[i].takes);
    printf("SERVICES, PERIODS and STATE are numbers with commas between, or '' for none; BYTES are hexadecimal, in one argument.\n"
           "LENGTH is the wanted block length; 0, or none, asks for the periods' greatest common divisor.\n"
           "ROOM is how many bytes or entries are lent for what is written; N how many for the answer (as many as the call wants).\n");
}

static int refused(uint64_t word) {
    tickplume_kind_t kind = (tickplume_kind_t)TICKPLUME_NUMBER(word);
    const char *place = tickplume_place_is(kind);
    printf("refused %u %" PRIu64 "\n", TICKPLUME_NUMBER(word), TICKPLUME_PLACE(word));
    fprintf(stderr, "ask: %s", tickplume_meaning(kind));
    if (*place) fprintf(stderr, " (%s %" PRIu64 ")", place, TICKPLUME_PLACE(word));
    fprintf(stderr, "\n");
    return 1;
}

/* The call of that name with the arguments after it; lent is NULL or what -a says. */
static int run(char **given, int count, const char *lent) {
    size_t i = 0;
    uint64_t word;
    while (i < calls_len && strcmp(calls[i].name, given[0]) != 0) i++;
    if (i == calls_len) wrong("there is no such call; ask --help lists them", given[0]);
    if (lent && !calls[i].lent) wrong("this call answers in its state alone, so -a does not go with it", given[0]);
    if (count - 1 < calls[i].fewest || count - 1 > calls[i].most) wrong("this call takes other arguments; ask --help lists them", given[0]);
    word = calls[i].ask(given + 1, count - 1, lent ? (size_t)number(lent, TICKPLUME_STATE) : calls[i].lent);
    return word ? refused(word) : 0;
}

int main(int argc, char **argv) {
    int status = 0, skip = argc > 1 && strcmp(argv[1], "-a") == 0 ? 3 : 1;
    if (argc == 2 && (strcmp(argv[1], "--help") == 0 || strcmp(argv[1], "-h") == 0))
        help();
    else if (argc <= skip)
        wrong("the name of a call is wanted after this; ask --help lists them", argv[argc - 1]);
    else
        status = run(argv + skip, argc - skip, skip == 3 ? argv[2] : NULL);
    if (fflush(stdout) != 0 || ferror(stdout)) {
        fprintf(stderr, "ask: the output could not be written\n");
        return 4;
    }
    return status;
}
