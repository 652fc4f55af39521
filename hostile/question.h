// A question to the C face, as the bytes of one file: what the fuzzer mutates, and what is kept.
//
//   byte 0       which call: 0 find, 1 whose, 2 payload, 3 all of them, 4 too long a recording,
//                5 text, 6 owner, 7 open
//   byte 1       for text, the header's length; for owner, whose and too long a recording, the
//                chain's count of numbers; for open, a bit for each of the five tables that has the
//                count below, Info's the lowest, while the others have 4,096 rows; else nothing
//   bytes 2, 3   the table's count of numbers; this and what follows is little-endian
//   bytes 4..7   the part that is sought, or the parent; for text, the kind
//   bytes 8..15  start; for payload and too long a recording, the recording's length; for text, the
//                address
//   bytes 16..23 size; for payload, nothing; for text, the payload's length
//   bytes 24..31 address; for payload and text, the row
//   from 32 on   the recording; for payload, the table's numbers, over and over
//
// For text every row of the table has these numbers. What is asked for payload is asked for text
// too: there all of the recording is inaccessible but a zero byte, where the payload begins. What
// is asked for whose is asked for owner too. Both calls for the owner of a byte are made: for the
// first recording, nothing behind the header of the owner is there. With all of them, open has five
// tables of the count; it lends each in memory of its own.
//
// Each call is made twice: on a recording and a table that end at an inaccessible page, then on
// ones that begin behind such a page. Each question is put in plain mode and in live mode, and in a
// mode that is none, which has to be 14. What live mode says has to be what plain mode says where
// no header of unknown size is in the recording; of a payload and of an owner it is 17, or the
// same. For text these pages are right behind and right before the bytes that may be looked at. The
// recording can only be read. Both replies and tables have to be the same, and all that the header
// says of replies has to hold. Each call is timed by the processor's time of this thread, and held
// to a bound that is linear in what it may look at.
#ifndef HOSTILE_QUESTION_H
#define HOSTILE_QUESTION_H

#include "../viewer/replies.h"

#include <stdio.h>
#include <string.h>
#include <time.h>
#include <unistd.h>

#define HEAD 32
#define MOST_RECORDING (1 << 24)

enum { FIND, WHOSE, PAYLOAD, ALL, TOO_LONG, TEXT, OWNER, OPEN, CALLS };

typedef struct {
    unsigned call, header; // the second is byte 1, whatever it is for the call
    size_t numbers;
    uint32_t id;
    uint64_t start, size, address;
    const uint8_t *bytes;
    size_t length;
} question;

static uint64_t little(const uint8_t *from, unsigned bytes) {
    uint64_t number = 0;
    while (bytes-- > 0)
        number = number << 8 | from[bytes];
    return number;
}

// Whether the bytes are a question; any bytes from HEAD on are.
static bool as_question(const uint8_t *data, size_t size, question *to) {
    if (size < HEAD || size - HEAD > MOST_RECORDING)
        return false;
    to->call = data[0] % CALLS;
    to->header = data[1];
    to->numbers = (size_t)little(data + 2, 2);
    to->id = (uint32_t)little(data + 4, 4);
    to->start = little(data + 8, 8);
    to->size = little(data + 16, 8);
    to->address = little(data + 24, 8);
    to->bytes = data + HEAD;
    to->length = size - HEAD;
    return true;
}

// ---- What the program that includes this is told ----

// One call: its name, the numbers and bytes that it may look at, its time in nanoseconds, and how
// many blocks of instructions were entered, where the archive counts them. A byte counts once for
// each seek head that may hold it, and once more.
typedef struct {
    const char *call;
    uint64_t numbers, bytes, time, steps;
} cost;

// Told before the answers of a mode come; those of a mode that is none are not told.
static void told_mode(void);
static void told(cost of);
static void told_part(uint32_t part, uz_part said, lent in);
static void told_open(uz_opened said, const lent in[FIVE]);
static void told_place(uz_place said, lent in);
static void told_range(uint64_t row, uz_range said);
static void told_text(uint64_t row, uz_range said);
static void told_owner(uz_owned said, uz_owned chained, lent chain);

// Counted by an instrumented archive; stays 0 with the one that is shipped.
static uint64_t steps;

// ---- Memory ----

static const size_t room_of[3] = {1 << 13, 1 << 15, 1 << 16};
static arena tables[3];
static arena five_tables[FIVE][3];
static arena nowhere;

// The same memory twice: to write, and to read between inaccessible pages.
static uint8_t *to_write;
static arena to_read;

static void make_memory(void) {
    for (size_t i = 0; i < 3; i++) {
        tables[i] = make_arena(room_of[i] * sizeof(uint64_t));
        for (size_t k = 0; k < FIVE; k++)
            five_tables[k][i] = make_arena(room_of[i] * sizeof(uint64_t));
    }
    nowhere = make_arena(PAGE);
    allow(nowhere, PROT_NONE);
    to_read = make_arena(2 * (size_t)MOST_RECORDING + PAGE);
    int file = memfd_create("recording", 0);
    if (file < 0 || ftruncate(file, (off_t)to_read.size) != 0)
        give_up("there is no memory for a recording");
    to_write = mmap(NULL, to_read.size, PROT_READ | PROT_WRITE, MAP_SHARED, file, 0);
    void *again = mmap(to_read.first, to_read.size, PROT_READ, MAP_SHARED | MAP_FIXED, file, 0);
    if (to_write == MAP_FAILED || again == MAP_FAILED)
        give_up("a recording can't be mapped");
    close(file);
}

static recording placed(const uint8_t *bytes, size_t length, bool front) {
    size_t at = front ? 0 : to_read.size - length;
    if (length > 0)
        memcpy(to_write + at, bytes, length);
    recording made = {to_read.first + at, length};
    return made;
}

// In the smallest room that has the numbers, since all of it is filled and looked at.
static lent lend_of(const arena rooms[3], size_t numbers, bool front) {
    size_t i = 0;
    while (numbers > room_of[i])
        i++;
    return lend(rooms[i], numbers, front);
}

static lent lend_for(size_t numbers, bool front) {
    return lend_of(tables, numbers, front);
}

// ---- Time ----

// The bounds. The README tells how they were found; an instrumented archive has larger ones for
// time.
#define LEAST_TIME UINT64_C(20000) // nanoseconds of any call
#ifndef TIME_NUMBER
#define TIME_NUMBER UINT64_C(10) // and for each number of the table
#endif
#ifndef TIME_BYTE
#define TIME_BYTE UINT64_C(120) // and for each byte
#endif
#define LEAST_STEPS UINT64_C(400) // steps of any call
#define STEPS_BYTE UINT64_C(20)   // and for each byte

// How often a call that took too long is timed again before that counts.
#define AGAIN 25

static uint64_t now(void) {
    struct timespec at;
    clock_gettime(CLOCK_THREAD_CPUTIME_ID, &at);
    return (uint64_t)at.tv_sec * UINT64_C(1000000000) + (uint64_t)at.tv_nsec;
}

static bool in_time(cost of) {
    return of.time <= LEAST_TIME + TIME_NUMBER * of.numbers + TIME_BYTE * of.bytes;
}

static bool in_steps(cost of) {
    return of.steps <= LEAST_STEPS + STEPS_BYTE * of.bytes;
}

// Takes the least time of some more runs of a call that was too slow.
#define TIMED(of, answer, question_put)                                                            \
    do {                                                                                           \
        for (unsigned n_ = 0; n_ <= AGAIN; n_++) {                                                 \
            uint64_t steps_ = steps, from_ = now();                                                \
            answer = question_put;                                                                 \
            uint64_t time_ = now() - from_;                                                        \
            if (n_ == 0 || time_ < (of).time)                                                      \
                (of).time = time_;                                                                 \
            (of).steps = steps - steps_;                                                           \
            if (in_time(of))                                                                       \
                break;                                                                             \
        }                                                                                          \
        check(in_time(of), "the time is linear");                                                  \
        check(in_steps(of), "the steps are linear");                                               \
        told(of);                                                                                  \
    } while (0)

// How many seek heads a search may read: no more than there are ids of one.
static uint64_t most_heads(recording from) {
    static const uint8_t id[4] = {0x11, 0x4D, 0x9B, 0x74};
    uint64_t found = 0;
    for (size_t i = 0; i + 4 <= from.length && found < UZ_MOST_HEADS; i++)
        found += memcmp(from.bytes + i, id, 4) == 0;
    return found;
}

// How many parts may be read: no more than there are ids of one. Each clears its table first.
static uint64_t most_parts(recording from) {
    uint64_t found = 0;
    for (size_t i = 0; i + 4 <= from.length; i++) {
        uint64_t id = big(from, i, 4);
        for (size_t k = 0; k < FIVE; k++)
            found += id == five[k];
    }
    return found;
}

// ---- The calls ----

static uint64_t kept[1 << 16];

// What plain mode says to a question that was put in live mode, in a table of its own.
static uint64_t plain_table[1 << 16];

static void check_part_alike(recording from, uint32_t part, lent to, uz_part said) {
    if (mode != UZ_LIVE || may_differ(from))
        return;
    uz_part plain = uz_find_part(from.bytes, from.length, part, plain_table, to.numbers, UZ_PLAIN);
    check(is_part(plain, said), "without unknown sizes both modes find the same");
    check(memcmp(plain_table, to.table, to.numbers * sizeof *to.table) == 0, "and the same rows");
}

static void check_place_alike(recording from, pointed byte, lent to, uz_place said) {
    if (mode != UZ_LIVE || said.refused == UZ_UNKNOWN_SIZE)
        return;
    uz_place plain = uz_whose_byte(from.bytes, from.length, byte.start, byte.size, byte.parent,
                                   byte.address, plain_table, to.numbers, UZ_PLAIN);
    check(same_place(plain, said), "a payload is 17 in live mode, or the same in both");
    check(memcmp(plain_table, to.table, to.numbers * sizeof *to.table) == 0, "and its rows too");
}

static uz_part ask_part(const question *asked, uint32_t part, size_t numbers) {
    uz_part first = {0, 0, 0, 0, 0, 0, 0, 0};
    for (unsigned front = 0; front < 2; front++) {
        recording from = placed(asked->bytes, asked->length, front != 0);
        lent to = lend_for(numbers, front != 0);
        uint64_t heads = most_heads(from);
        cost of = {"find", numbers, (1 + heads) * from.length, 0, 0};
        uz_part said;
        TIMED(of, said, uz_find_part(from.bytes, from.length, part, to.table, to.numbers, mode));
        check_part(from, part, to, said);
        check_part_alike(from, part, to, said);
        check(said.heads <= heads, "no more heads than there are ids of one");
        if (front == 0) {
            first = said;
            memcpy(kept, to.table, numbers * sizeof *kept);
            told_part(part, said, to);
        } else {
            check(is_part(said, first), "find_part twice gives one reply");
            check(memcmp(kept, to.table, numbers * sizeof *kept) == 0, "and one table");
        }
    }
    return first;
}

// ---- All parts at once ----

static uint64_t kept_five[FIVE][1 << 16];

static uz_opened call_open(recording from, const lent to[FIVE], uint32_t in_mode) {
    return uz_open(from.bytes, from.length, to[0].table, to[0].numbers, to[1].table, to[1].numbers,
                   to[2].table, to[2].numbers, to[3].table, to[3].numbers, to[4].table,
                   to[4].numbers, in_mode);
}

static void check_open_alike(recording from, const lent to[FIVE], uz_opened said) {
    static uint64_t plain[FIVE][1 << 16];
    lent in[FIVE];
    if (mode != UZ_LIVE || may_differ(from))
        return;
    for (size_t i = 0; i < FIVE; i++)
        in[i] = (lent){plain[i], to[i].numbers, nowhere};
    check(is_opened(call_open(from, in, UZ_PLAIN), said),
          "without unknown sizes both modes open the same");
    for (size_t i = 0; i < FIVE; i++)
        check(memcmp(plain[i], to[i].table, to[i].numbers * sizeof(uint64_t)) == 0,
              "and the same rows of each part");
}

// The bytes that open may look at: those of a search, and where there is a head each of the five
// parts that it leads to once more.
static cost cost_of_open(recording from, const lent to[FIVE]) {
    uint64_t heads = most_heads(from), numbers = 0, most = 0;
    for (size_t i = 0; i < FIVE; i++) {
        numbers += to[i].numbers;
        most = to[i].numbers > most ? to[i].numbers : most;
    }
    return (cost){"open", 3 * numbers + most_parts(from) * most,
                  (1 + heads + (heads > 0 ? FIVE : 0)) * from.length, 0, 0};
}

// `which` has a bit for each table of so many numbers.
static void ask_open(const question *asked, unsigned which, size_t numbers) {
    uz_opened first = {0};
    for (unsigned front = 0; front < 2; front++) {
        recording from = placed(asked->bytes, asked->length, front != 0);
        lent to[FIVE];
        for (size_t i = 0; i < FIVE; i++)
            to[i] = lend_of(five_tables[i], which >> i & 1 ? numbers : UZ_MOST_NUMBERS, front != 0);
        cost of = cost_of_open(from, to);
        uz_opened said;
        TIMED(of, said, call_open(from, to, mode));
        check_open(from, to, said);
        check_open_alike(from, to, said);
        check(said.heads <= most_heads(from), "no more heads than there are ids of one");
        for (size_t i = 0; i < FIVE; i++)
            if (front == 0)
                memcpy(kept_five[i], to[i].table, to[i].numbers * sizeof(uint64_t));
            else
                check(memcmp(kept_five[i], to[i].table, to[i].numbers * sizeof(uint64_t)) == 0,
                      "open twice gives the same tables");
        check(front == 0 || is_opened(said, first), "and one reply");
        if (front == 0)
            told_open(said, to);
        first = said;
    }
}

static uz_place ask_place(const question *asked, uint64_t start, uint64_t size, uint32_t parent,
                          uint64_t address, size_t numbers) {
    uz_place first = {0, 0, 0, 0, 0};
    for (unsigned front = 0; front < 2; front++) {
        recording from = placed(asked->bytes, asked->length, front != 0);
        lent to = lend_for(numbers, front != 0);
        uint64_t left = start <= from.length ? from.length - start : 0;
        cost of = {"whose", numbers, left, 0, 0};
        uz_place said;
        TIMED(of, said,
              uz_whose_byte(from.bytes, from.length, start, size, parent, address, to.table,
                            to.numbers, mode));
        check_place(from, start, size, address, to, said);
        check_place_alike(from, (pointed){start, size, parent, address}, to, said);
        if (front == 0) {
            first = said;
            memcpy(kept, to.table, numbers * sizeof *kept);
            told_place(said, to);
        } else {
            check(same_place(said, first), "whose_byte twice gives one reply");
            check(memcmp(kept, to.table, numbers * sizeof *kept) == 0, "and one table");
        }
    }
    return first;
}

// The recording is inaccessible: of it, only the length is looked at.
static uz_range ask_range(const uint64_t *numbers_of, size_t numbers, uint64_t length,
                          uint64_t row) {
    cost of = {"payload", 0, 0, 0, 0};
    uz_range said, again;
    TIMED(of, said, uz_row_payload(nowhere.first, (size_t)length, numbers_of, numbers, row));
    TIMED(of, again, uz_row_payload(nowhere.first, (size_t)length, numbers_of, numbers, row));
    check(same_range(again, said), "row_payload twice gives one reply");
    check(same_range(said, due_payload(length, numbers_of, numbers, row)), "a row's payload");
    told_range(row, said);
    return said;
}

// A recording of any length, of which nothing is there but some bytes, `size` from the address `at`
// on: they end at an inaccessible page, or begin behind one.
static recording alone(const uint8_t *bytes, size_t size, uint64_t at, uint64_t length,
                       bool front) {
    recording there = placed(bytes, size, front);
    recording made = {(const uint8_t *)((uintptr_t)there.bytes - (uintptr_t)at), (size_t)length};
    return made;
}

// Asks for the text of a row. Nothing is there but what may be looked at, which is `looked_at`
// bytes from `bytes` on; for a refusal, nothing at all.
static uz_range ask_text(const uint8_t *bytes, uint64_t looked_at, uint64_t length,
                         const uint64_t *numbers_of, size_t numbers, uint64_t row, uz_range due) {
    cost of = {"text", 0, looked_at, 0, 0};
    uz_range said = due;
    for (unsigned front = 0; front < 2; front++) {
        recording from = {nowhere.first, (size_t)length};
        if (looked_at > 0)
            from = alone(bytes, (size_t)looked_at, due.at, length, front != 0);
        TIMED(of, said, uz_shown_text(from.bytes, from.length, numbers_of, numbers, row));
        check(same_range(said, due), "a row's shown text");
    }
    told_text(row, said);
    return said;
}

// A table of any numbers, which can't be written during the call.
static void ask_payload(const question *asked) {
    static const uint8_t zero = 0;
    for (unsigned front = 0; front < 2; front++) {
        lent to = lend_for(asked->numbers, front != 0);
        for (size_t i = 0; asked->length >= 8 && i < to.numbers; i++)
            to.table[i] = little(asked->bytes + i % (asked->length / 8) * 8, 8);
        allow(to.in, PROT_READ);
        uz_range due = ask_range(to.table, to.numbers, asked->start, asked->address);
        uint64_t kind = due.refused == UZ_ACCEPTED ? cell(to, asked->address, UZ_KIND) : 0;
        uint64_t looked_at = due.length > 0 ? 1 : 0;
        due.length = 0;
        if (kind != UZ_STRING && kind != UZ_UTF8) {
            due = (uz_range){UZ_BAD_ARGUMENT, 0, 0};
            looked_at = 0;
        }
        ask_text(&zero, looked_at, asked->start, to.table, to.numbers, asked->address, due);
        check(only_table(to), "row_payload and shown_text write nothing");
        allow(to.in, PROT_READ | PROT_WRITE);
    }
}

// The text of a row of any numbers, in any recording.
static void ask_any_text(const question *asked) {
    recording from = {asked->bytes, asked->length};
    for (unsigned front = 0; front < 2; front++) {
        lent to = lend_for(asked->numbers, front != 0);
        for (size_t i = 0; i + UZ_WIDTH <= to.numbers; i += UZ_WIDTH) {
            to.table[i + UZ_ADDRESS] = asked->start;
            to.table[i + UZ_HEADER] = asked->header;
            to.table[i + UZ_PAYLOAD] = asked->size;
            to.table[i + UZ_KIND] = asked->id;
        }
        allow(to.in, PROT_READ);
        uint64_t looked_at;
        uz_range due = due_text(from, to.table, to.numbers, asked->address, &looked_at);
        ask_text(asked->bytes + due.at, looked_at, from.length, to.table, to.numbers,
                 asked->address, due);
        check(only_table(to), "shown_text writes nothing");
        allow(to.in, PROT_READ | PROT_WRITE);
    }
}

// Both replies about a row that was written for the recording.
static void ask_row(const question *asked, uint64_t *table, uint64_t row) {
    recording from = {asked->bytes, asked->length};
    lent in = {table, asked->numbers, nowhere};
    uint64_t looked_at;
    uz_range due = due_text(from, table, in.numbers, row, &looked_at);
    uz_range payload = ask_range(table, in.numbers, from.length, row);
    uz_range text =
        ask_text(from.bytes + due.at, looked_at, from.length, table, in.numbers, row, due);
    check_row(from, in, row, payload, text);
}

// The recording, of which nothing behind the owner's header is there; all of it if none has the
// byte.
static recording before_body(const question *asked, uz_owned due) {
    recording from = {asked->bytes, asked->length};
    uint64_t id, size;
    if (due.refused != UZ_ACCEPTED)
        return placed(from.bytes, from.length, false);
    uint64_t behind = due.at + header(from, due.at, &id, &size);
    return alone(from.bytes, (size_t)behind, 0, from.length, false);
}

// Both calls for the owner of a byte. They may look at headers, and at no more of them than lead to
// it.
static uz_owned ask_owner(const question *asked, pointed byte, size_t links, lent *chain) {
    recording all = {asked->bytes, asked->length};
    way down;
    uz_owned due = due_owner(all, byte, &down), said = due, chained = due;
    for (unsigned front = 0; front < 2; front++) {
        recording from =
            front == 0 ? before_body(asked, due) : placed(asked->bytes, asked->length, true);
        cost of = {"owner", 0, down.looked_at, 0, 0};
        TIMED(of, said,
              uz_owner(from.bytes, from.length, byte.start, byte.size, byte.parent, byte.address,
                       mode));
        lent to = lend_for(links, front != 0);
        of = (cost){"chain", links, down.looked_at, 0, 0};
        TIMED(of, chained,
              uz_owner_chain(from.bytes, from.length, byte.start, byte.size, byte.parent,
                             byte.address, to.table, to.numbers, mode));
        check_owned(all, byte, said);
        check(same_owned(said, due), "the owner by the rule");
        check_chain(to, chained, due, &down);
        if (mode == UZ_LIVE && said.refused != UZ_UNKNOWN_SIZE)
            check(same_owned(uz_owner(from.bytes, from.length, byte.start, byte.size, byte.parent,
                                      byte.address, UZ_PLAIN),
                             said),
                  "an owner is 17 in live mode, or the same in both");
        *chain = to;
    }
    told_owner(said, chained, *chain);
    return said;
}

// The owner of a byte whose row was named, if it was.
static void ask_owner_too(const question *asked, pointed byte, uz_place place, size_t links) {
    static uint64_t rows[1 << 16];
    lent in = {rows, asked->numbers, nowhere}, chain;
    memcpy(rows, kept, asked->numbers * sizeof *rows);
    uz_owned said = ask_owner(asked, byte, links, &chain);
    if (place.refused == UZ_ACCEPTED && links <= UZ_MOST_LINKS)
        check(is_row_of(in, place, said, chain), "the owner is the row that was named");
}

static void ask_whose(const question *asked) {
    pointed byte = {asked->start, asked->size, asked->id, asked->address};
    uz_place place =
        ask_place(asked, byte.start, byte.size, byte.parent, byte.address, asked->numbers);
    ask_owner_too(asked, byte, place, asked->header);
}

// Each part, its rows' payloads and texts, and the owners of its first, its last and some other
// byte; that of some byte by the order of the file; and all parts at once. What an absent or
// refused part leaves has no text.
static void ask_all(const question *asked) {
    static uint64_t table[1 << 16];
    for (unsigned i = 0; i < 4; i++) {
        uz_part found = ask_part(asked, parts[i], asked->numbers);
        memcpy(table, kept, asked->numbers * sizeof *table);
        for (uint64_t row = 0; row < found.rows; row += 1 + found.rows / 16)
            ask_row(asked, table, row);
        ask_text(NULL, 0, asked->length, table, asked->numbers, found.rows,
                 (uz_range){UZ_BAD_ARGUMENT, 0, 0});
        if (found.size == 0)
            continue;
        uint64_t bytes[] = {0, asked->address % found.size, found.size - 1};
        for (unsigned k = 0; k < 3; k++) {
            uz_place owner = ask_place(asked, found.at, found.size, parents[i], found.at + bytes[k],
                                       asked->numbers);
            check(owner.refused == UZ_ACCEPTED && owner.rows == found.rows,
                  "a byte of an accepted part has an owner");
            check(memcmp(table, kept, asked->numbers * sizeof *table) == 0, "one table for a part");
            pointed byte = {found.at, found.size, parents[i], found.at + bytes[k]};
            ask_owner_too(asked, byte, owner, UZ_MOST_LINKS);
        }
    }
    pointed byte = {0, UINT64_MAX, 0, asked->address % (asked->length + 1)};
    lent chain;
    ask_owner(asked, byte, UZ_MOST_LINKS, &chain);
    ask_open(asked, (1 << FIVE) - 1, asked->numbers);
}

// More bytes than a recording may have are refused before one is looked at.
static void ask_too_long(const question *asked) {
    uint64_t longer =
        asked->start > UZ_MOST_BYTES ? asked->start : asked->start + UZ_MOST_BYTES + 1;
    recording none = {nowhere.first, (size_t)longer};
    lent to = lend_for(asked->numbers, false);
    cost of = {"too long", asked->numbers, 0, 0, 0};
    uz_part part;
    TIMED(of, part, uz_find_part(none.bytes, none.length, asked->id, to.table, to.numbers, mode));
    check(part.refused == UZ_BAD_ARGUMENT, "too long a recording is refused");
    check_part(none, asked->id, to, part);
    told_part(asked->id, part, to);
    to = lend_for(asked->numbers, true);
    uz_place place;
    TIMED(of, place,
          uz_whose_byte(none.bytes, none.length, asked->start, asked->size, asked->id,
                        asked->address, to.table, to.numbers, mode));
    check(place.refused == UZ_BAD_ARGUMENT, "too long a recording is refused");
    check_place(none, asked->start, asked->size, asked->address, to, place);
    told_place(place, to);
    lent chain = lend_for(asked->header, true);
    uz_owned owner, chained;
    TIMED(of, owner,
          uz_owner(none.bytes, none.length, asked->start, asked->size, asked->id, asked->address,
                   mode));
    TIMED(of, chained,
          uz_owner_chain(none.bytes, none.length, asked->start, asked->size, asked->id,
                         asked->address, chain.table, chain.numbers, mode));
    way down = {{0}, 0};
    check(same_owned(owner, no_owner(UZ_BAD_ARGUMENT, 0)), "too long a recording has no owner");
    check_chain(chain, chained, owner, &down);
    told_owner(owner, chained, chain);
    lent all[FIVE];
    uz_opened opened;
    for (size_t i = 0; i < FIVE; i++)
        all[i] = lend_of(five_tables[i], asked->numbers, false);
    of.numbers = FIVE * asked->numbers;
    TIMED(of, opened, call_open(none, all, mode));
    check(opened.refused == UZ_BAD_ARGUMENT, "too long a recording is not opened");
    check_open(none, all, opened);
    told_open(opened, all);
    to = lend_for(asked->numbers, true);
    memset(to.table, 0, to.numbers * sizeof *to.table);
    if (asked->numbers >= UZ_WIDTH)
        to.table[UZ_KIND] = UZ_UTF8;
    ask_text(NULL, 0, longer, to.table, to.numbers, 0, (uz_range){UZ_BAD_ARGUMENT, 0, 0});
}

static void ask_now(const question *asked) {
    lent chain;
    switch (asked->call) {
    case FIND:
        ask_part(asked, asked->id, asked->numbers);
        break;
    case WHOSE:
        ask_whose(asked);
        break;
    case PAYLOAD:
        ask_payload(asked);
        break;
    case ALL:
        ask_all(asked);
        break;
    case TEXT:
        ask_any_text(asked);
        break;
    case OPEN:
        ask_open(asked, asked->header, asked->numbers);
        break;
    case OWNER:
        ask_owner(asked, (pointed){asked->start, asked->size, asked->id, asked->address},
                  asked->header, &chain);
        break;
    default:
        ask_too_long(asked);
    }
}

// In both modes, and in one that is none. What has no mode is asked once.
static void ask(const question *asked) {
    bool once = asked->call == PAYLOAD || asked->call == TEXT;
    for (mode = UZ_PLAIN; mode <= UZ_LIVE; mode++) {
        told_mode();
        ask_now(asked);
        if (once)
            break;
    }
    if (!once) {
        mode = (uint32_t)(asked->address ^ asked->size ^ asked->length) | 2;
        ask_now(asked);
    }
    mode = UZ_PLAIN;
}

#endif
