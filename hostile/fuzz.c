// The fuzzer's target: one question of hostile/question.h for each input, mutated as plain bytes,
// by its arguments, or as a tree of elements. libFuzzer calls it; hostile/run builds it with an
// archive in which the proved code is instrumented.
//
// Anything that does not hold ends the program, so that libFuzzer keeps the input. At the end it
// prints what was asked and the slowest calls.
#define _GNU_SOURCE
#include "mutate.h"
#include "question.h"

#include <inttypes.h>
#include <stdlib.h>

size_t LLVMFuzzerMutate(uint8_t *data, size_t size, size_t room);
int LLVMFuzzerInitialize(int *count, char ***words);
int LLVMFuzzerTestOneInput(const uint8_t *data, size_t size);
size_t LLVMFuzzerCustomMutator(uint8_t *data, size_t size, size_t room, unsigned seed);
void hostile_step(void);

// The instrumented archive calls this at each block of instructions.
void hostile_step(void) {
    steps++;
}

static uint64_t checks;

static void check(bool good, const char *what) {
    checks++;
    if (good)
        return;
    fprintf(stderr, "hostile: wrong: %s\n", what);
    abort();
}

static void give_up(const char *what) {
    fprintf(stderr, "hostile: %s\n", what);
    exit(2);
}

// ---- What guides the fuzzer besides the edges of the code ----

// libFuzzer keeps an input that sets a counter here which none set before: a refusal of a call in a
// mode, a count of heads or rows, a kind at a depth, the length of a text, an owner at a depth,
// which of the five parts are there, with a head or without, or more steps for each byte.
#define CAUSES (UZ_UNKNOWN_SIZE + 1)
#define FIND_REFUSED 0
#define WHOSE_REFUSED (FIND_REFUSED + 2 * CAUSES)
#define OWNER_REFUSED (WHOSE_REFUSED + 2 * CAUSES)
#define OPEN_REFUSED (OWNER_REFUSED + 2 * CAUSES)
#define RANGE_REFUSED (OPEN_REFUSED + 2 * CAUSES)
#define OUTCOMES (RANGE_REFUSED + CAUSES)
#define OWNERS (OUTCOMES + 2 * 8)
#define HEADS (OWNERS + 2 * 16)
#define ROWS (HEADS + 65)
#define KINDS (ROWS + 16)
#define TEXTS (KINDS + 8 * 16)
#define OPENED (TEXTS + 33)
#define SLOW (OPENED + 2 * (1 << FIVE))
#define FEATURES (SLOW + 3 * 400)

__attribute__((used, section("__libfuzzer_extra_counters"))) static uint8_t features[FEATURES];

static void rows_seen(uint64_t rows, lent in) {
    unsigned bits = 0;
    while (rows >> bits != 0)
        bits++;
    features[ROWS + bits] = 1;
    for (uint64_t row = 0; row < rows; row++)
        features[KINDS + (cell(in, row, UZ_KIND) - 1) * 16 + cell(in, row, UZ_DEPTH)] = 1;
}

// ---- The slowest ----

#define ENOUGH 256

typedef struct {
    uint64_t calls, time, most_time, most_each, most_steps, most_steps_each;
} slowest;

static slowest of_calls[8];
static const char *const names[] = {"find",    "whose",    "owner", "chain",
                                    "payload", "too long", "text",  "open"};

static void told_mode(void) {
}

// In which of the two modes a call was made; false for one that is none.
static bool is_told(unsigned *now_) {
    *now_ = mode == UZ_LIVE;
    return mode <= UZ_LIVE;
}

static void told(cost of) {
    unsigned call = 0;
    while (strcmp(names[call], of.call) != 0)
        call++;
    slowest *most = &of_calls[call];
    most->calls++;
    most->time += of.time;
    if (of.time > most->most_time)
        most->most_time = of.time;
    if (of.steps > most->most_steps)
        most->most_steps = of.steps;
    // For each byte, where there are enough that what every call takes does not matter; in
    // hundredths.
    uint64_t time_each = of.bytes >= ENOUGH ? of.time * 100 / of.bytes : 0;
    uint64_t steps_each = of.bytes >= ENOUGH ? of.steps * 100 / of.bytes : 0;
    if (time_each > most->most_each)
        most->most_each = time_each;
    if (steps_each > most->most_steps_each)
        most->most_steps_each = steps_each;
    if (call < 3)
        features[SLOW + call * 400 + (steps_each / 5 < 400 ? steps_each / 5 : 399)] = 1;
}

static void told_part(uint32_t part, uz_part said, lent in) {
    unsigned live;
    (void)part;
    if (!is_told(&live))
        return;
    features[FIND_REFUSED + live * CAUSES + said.refused] = 1;
    features[OUTCOMES + live * 8 + (said.id == SEEK_HEAD ? 1 : said.found != 0 ? 2 : 0)] = 1;
    features[HEADS + said.heads] = 1;
    rows_seen(said.rows, in);
}

static void told_open(uz_opened said, const lent in[FIVE]) {
    unsigned live, there = 0;
    if (!is_told(&live))
        return;
    features[OPEN_REFUSED + live * CAUSES + said.refused] = 1;
    for (size_t i = 0; i < FIVE; i++) {
        there |= (unsigned)found_in(&said, i)->found << i;
        rows_seen(found_in(&said, i)->rows, in[i]);
    }
    if (said.refused == UZ_ACCEPTED)
        features[OPENED + (said.heads > 0 ? 1 << FIVE : 0) + there] = 1;
}

static void told_place(uz_place said, lent in) {
    unsigned live;
    if (!is_told(&live))
        return;
    features[WHOSE_REFUSED + live * CAUSES + said.refused] = 1;
    features[OUTCOMES + live * 8 + 3 + said.in_payload] = 1;
    rows_seen(said.rows, in);
}

static void told_range(uint64_t row, uz_range said) {
    (void)row;
    features[RANGE_REFUSED + said.refused] = 1;
}

// Whether it is a text, an empty one, and how long by powers of two.
static void told_text(uint64_t row, uz_range said) {
    (void)row;
    unsigned bits = 0;
    while (said.length >> bits != 0)
        bits++;
    features[OUTCOMES + 5 + (said.refused == UZ_ACCEPTED ? 1 : 0)] = 1;
    features[TEXTS + bits] = 1;
}

static void told_owner(uz_owned said, uz_owned chained, lent chain) {
    unsigned live;
    (void)chained;
    (void)chain;
    if (!is_told(&live))
        return;
    features[OWNER_REFUSED + live * CAUSES + said.refused] = 1;
    if (said.refused == UZ_ACCEPTED)
        features[OWNERS + said.depth * 2 + said.in_payload] = 1;
}

static void at_end(void) {
    fprintf(stderr, "hostile: %" PRIu64 " checks, 0 wrong\n", checks);
    for (unsigned i = 0; i < COUNT(of_calls); i++)
        fprintf(stderr,
                "hostile: %s: %" PRIu64 " calls, %" PRIu64 " ns in all, at most %" PRIu64
                " ns, %" PRIu64 " steps; each byte at most %" PRIu64 ".%02u ns, %" PRIu64
                ".%02u steps\n",
                names[i], of_calls[i].calls, of_calls[i].time, of_calls[i].most_time,
                of_calls[i].most_steps, of_calls[i].most_each / 100,
                (unsigned)(of_calls[i].most_each % 100), of_calls[i].most_steps_each / 100,
                (unsigned)(of_calls[i].most_steps_each % 100));
}

int LLVMFuzzerInitialize(int *count, char ***words) {
    (void)count;
    (void)words;
    make_memory();
    atexit(at_end);
    return 0;
}

int LLVMFuzzerTestOneInput(const uint8_t *data, size_t size) {
    question asked;
    if (!as_question(data, size, &asked))
        return -1;
    ask(&asked);
    return 0;
}

// ---- Mutations ----

static void put_little(uint8_t *to, uint64_t number, unsigned bytes) {
    for (unsigned i = 0; i < bytes; i++)
        to[i] = (uint8_t)(number >> 8 * i);
}

static size_t any_table(void) {
    static const size_t lengths[] = {0,
                                     UZ_WIDTH,
                                     2 * UZ_WIDTH,
                                     UZ_WIDTH - 1,
                                     UZ_WIDTH + 1,
                                     UZ_MOST_NUMBERS,
                                     UZ_MOST_NUMBERS - 1,
                                     UZ_MOST_NUMBERS + UZ_WIDTH,
                                     UZ_MOST_NUMBERS - UZ_WIDTH,
                                     65535};
    switch (any(4)) {
    case 0:
        return lengths[any(COUNT(lengths))];
    case 1:
        return (size_t)any(65536);
    default:
        return (size_t)any(600) * UZ_WIDTH;
    }
}

// An address of a header, or any near the recording.
static uint64_t any_place(recording from) {
    uint64_t at = 0, id, size;
    for (uint64_t n = any(20); n > 0; n--) {
        unsigned length = header(from, at, &id, &size);
        if (length == 0)
            break;
        at += length;
        if (!is_master((uint32_t)id) && size <= from.length - at)
            at += size;
    }
    return any(4) == 0 ? any(from.length + 3) : at;
}

static void change_arguments(uint8_t *data, recording from) {
    uint64_t start = any_place(from), id, size,
             left = from.length > start ? from.length - start : 0;
    switch (any(9)) {
    case 0:
        data[0] = (uint8_t)any(CALLS);
        break;
    case 1:
        // For open, mostly one table of another length.
        data[1] = (uint8_t)any(any(4) == 0 ? 256 : UZ_MOST_LINKS + 2);
        put_little(data + 2, any_table(), 2);
        break;
    case 2:
        put_little(data + 4, any(3) == 0 ? any_id() : any(2) == 0 ? 0x1549A966 : parts[any(4)], 4);
        break;
    case 3:
        put_little(data + 8, any(4) == 0 ? any_number() : start, 8);
        put_little(data + 16, any(4) == 0 ? any_number() : left, 8);
        put_little(data + 24, any(8) == 0 ? any(start + 1) : start + any(left + 1), 8);
        break;
    case 4:
        put_little(data + 24, any(3) == 0 ? any_number() : any(from.length + 2), 8);
        break;
    case 5:
        put_little(data + 16, any(3) == 0 ? any_number() : any(left + 2), 8);
        break;
    case 6: // A byte by the order of the file.
        data[0] = OWNER;
        put_little(data + 4, 0, 4);
        put_little(data + 8, 0, 8);
        put_little(data + 16, UINT64_MAX, 8);
        put_little(data + 24, any(from.length + 2), 8);
        break;
    default: // A master's payload, and a byte of it.
        for (unsigned n = 0; n < 10; n++) {
            unsigned length = header(from, start, &id, &size);
            if (length > 0 && is_master((uint32_t)id) && size > 0) {
                data[0] = any(2) == 0 ? WHOSE : OWNER;
                put_little(data + 4, any(4) == 0 ? any_id() : id, 4);
                put_little(data + 8, start + length, 8);
                put_little(data + 16, size, 8);
                put_little(data + 24, start + length + any(size), 8);
                return;
            }
            start = any_place(from);
        }
    }
}

// A question for a payload: one number of its table, mostly small, and a row that there is.
static void change_numbers(uint8_t *data, size_t size) {
    size_t rows = (size - HEAD) / 8 / UZ_WIDTH;
    data[0] = PAYLOAD;
    if (rows == 0)
        return;
    uint64_t row = any(rows);
    put_little(data + 2, rows * UZ_WIDTH, 2);
    put_little(data + 8, any(3) == 0 ? any_number() : any(300), 8);
    put_little(data + 24, row, 8);
    put_little(data + HEAD + (row * UZ_WIDTH + UZ_ADDRESS + any(3)) * 8,
               any(2) == 0 ? any_number() : any(100), 8);
}

// A question for a text: a row that is mostly in the recording and mostly a text, and now and then
// a zero byte in it.
static void change_text(uint8_t *data, recording from) {
    uint64_t start = any(from.length + 1), left = from.length - start;
    uint64_t header = any(left < 12 ? left + 1 : 13);
    data[0] = TEXT;
    data[1] = (uint8_t)header;
    put_little(data + 2, any_table(), 2);
    put_little(data + 4, any(4) == 0 ? any(10) : UZ_STRING + any(2), 4);
    put_little(data + 8, any(16) == 0 ? any_number() : start, 8);
    put_little(data + 16, any(16) == 0 ? any_number() : any(left - header + 1), 8);
    put_little(data + 24, any(16) == 0 ? any_number() : any(8), 8);
    if (from.length > 0 && any(2) == 0)
        data[HEAD + any(from.length)] = 0;
}

size_t LLVMFuzzerCustomMutator(uint8_t *data, size_t size, size_t room, unsigned seed) {
    chance = (seed + UINT64_C(1)) * UINT64_C(0x9E3779B97F4A7C15);
    if (room < HEAD + 16)
        return LLVMFuzzerMutate(data, size, room);
    if (size < HEAD) {
        memset(data + size, 0, HEAD - size);
        size = HEAD;
    }
    recording from = {data + HEAD, size - HEAD};
    switch (any(10)) {
    case 0:
        return LLVMFuzzerMutate(data, size, room);
    case 1:
    case 2:
        return HEAD + LLVMFuzzerMutate(data + HEAD, size - HEAD, room - HEAD);
    case 3:
        if (data[0] % CALLS == PAYLOAD || any(8) == 0) {
            change_numbers(data, size);
            return size;
        }
        change_arguments(data, from);
        return size;
    case 4:
        if (data[0] % CALLS == TEXT || any(8) == 0) {
            change_text(data, from);
            return size;
        }
        change_arguments(data, from);
        return size;
    case 5:
        link_heads(data + HEAD, size - HEAD, any(2) == 0);
        return size;
    default:
        return HEAD + change_tree(data + HEAD, size - HEAD, room - HEAD);
    }
}
