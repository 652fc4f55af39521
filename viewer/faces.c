// A test of the seven calls of include/uzrafmed.h, by a program that trusts none of them.
//
//   faces [FILE..]   tests worked cases, limits, and damage to a recording made here and each file
//
// Recordings lie in memory that can only be read, tables in memory that is inaccessible on both
// sides: right before the first number or right after the last one, in turn. A read past a
// recording's end or a write past a table's end so ends the program. Every reply is held to what
// the header says of all replies, and worked cases to their numbers; the owner of a byte, the way
// of a search and all parts at once also to walks that are written once more (replies.h). Both
// modes are asked: where they may not differ they have to agree.
//
// Prints what is wrong, and last 'faces: N checks, 0 wrong'. Status 1 if anything is wrong.
#define _DEFAULT_SOURCE
#include "chance.h"
#include "replies.h"

#include <inttypes.h>
#include <stdio.h>
#include <stdlib.h>
#include <string.h>

// How many damaged copies are asked of the recording made here, and of each file.
#define DAMAGED 6000
#define DAMAGED_FILE 300

// The longest file that is damaged.
#define MOST_FILE (1 << 20)

static uint64_t checks;
static uint64_t wrong;
static const char *about = "";

static void check(bool good, const char *what) {
    checks++;
    if (good)
        return;
    wrong++;
    if (wrong <= 20)
        printf("faces: wrong: %s: %s\n", about, what);
}

static void give_up(const char *what) {
    printf("faces: %s\n", what);
    exit(1);
}

// ---- The memory of the tests ----

static arena recordings;

// The bytes as a recording that can only be read, before an inaccessible page or, if `front`, after
// one.
static recording placed(const uint8_t *bytes, size_t length, bool front) {
    if (length > recordings.size)
        give_up("a recording is too long for a test");
    allow(recordings, PROT_READ | PROT_WRITE);
    uint8_t *to = front ? recordings.first : recordings.first + recordings.size - length;
    if (length > 0)
        memcpy(to, bytes, length);
    allow(recordings, PROT_READ);
    recording made = {to, length};
    return made;
}

// Room for more numbers than a table may have, and for the tables of the random tests.
static arena large_tables;
static arena small_tables;
static arena chains;

// ---- The calls, and what holds of all their replies ----

static uz_range row_payload(recording from, lent in, uint64_t row) {
    uz_range said = uz_row_payload(from.bytes, from.length, in.table, in.numbers, row);
    check(same_range(said, due_payload(from.length, in.table, in.numbers, row)), "a row's payload");
    return said;
}

static uz_range shown_text(recording from, lent in, uint64_t row) {
    uint64_t looked_at;
    uz_range said = uz_shown_text(from.bytes, from.length, in.table, in.numbers, row);
    check(same_range(said, due_text(from, in.table, in.numbers, row, &looked_at)),
          "a row's shown text");
    return said;
}

// Every row that a call wrote; the first and the last that it did not, and one beyond the table.
static void check_rows(recording from, uint64_t rows, lent in) {
    uint64_t last = in.numbers / UZ_WIDTH;
    for (uint64_t row = 0; row < rows; row++)
        check_row(from, in, row, row_payload(from, in, row), shown_text(from, in, row));
    const uint64_t unused[] = {rows, last > rows ? last - 1 : rows, last};
    for (size_t i = 0; i < sizeof unused / sizeof *unused; i++) {
        row_payload(from, in, unused[i]);
        check(shown_text(from, in, unused[i]).refused == UZ_BAD_ARGUMENT,
              "an unused row is no text");
    }
}

// What plain mode says to the same question, in a table of its own, where that was not asked for.
static arena plain_tables;

static lent plain_table(lent to) {
    return lend(plain_tables, to.numbers, false);
}

static bool same_table(lent one, lent other) {
    return memcmp(one.table, other.table, one.numbers * sizeof *one.table) == 0;
}

static uz_part find_part(recording from, uint32_t part, lent to) {
    uz_part said = uz_find_part(from.bytes, from.length, part, to.table, to.numbers, mode);
    check_part(from, part, to, said);
    check_rows(from, said.rows, to);
    if (mode == UZ_LIVE && from.length <= UZ_MOST_BYTES && !may_differ(from)) {
        lent plain = plain_table(to);
        check(is_part(
                  uz_find_part(from.bytes, from.length, part, plain.table, plain.numbers, UZ_PLAIN),
                  said),
              "without unknown sizes both modes find the same");
        check(same_table(plain, to), "and the same rows");
    }
    return said;
}

// Both calls for the owner of a byte. The chain is lent in `to`.
static uz_owned owner(recording from, pointed asked, lent to) {
    uz_owned said = uz_owner(from.bytes, from.length, asked.start, asked.size, asked.parent,
                             asked.address, mode);
    uz_owned chained = uz_owner_chain(from.bytes, from.length, asked.start, asked.size,
                                      asked.parent, asked.address, to.table, to.numbers, mode);
    way down;
    uz_owned due = due_owner(from, asked, &down);
    check_owned(from, asked, said);
    check(same_owned(said, due), "the owner by the rule");
    check_chain(to, chained, due, &down);
    if (mode == UZ_LIVE && said.refused != UZ_UNKNOWN_SIZE)
        check(same_owned(uz_owner(from.bytes, from.length, asked.start, asked.size, asked.parent,
                                  asked.address, UZ_PLAIN),
                         said),
              "an owner is 17 in live mode, or the same in both");
    return said;
}

// The same with a chain of any length, at either end of its memory.
static uz_owned any_owner(recording from, pointed asked) {
    static size_t turn;
    turn++;
    return owner(from, asked, lend(chains, turn % (UZ_MOST_LINKS + 2), turn % 3 == 0));
}

static uz_place whose_byte(recording from, uint64_t start, uint64_t size, uint32_t parent,
                           uint64_t address, lent to) {
    uz_place said = uz_whose_byte(from.bytes, from.length, start, size, parent, address, to.table,
                                  to.numbers, mode);
    check_place(from, start, size, address, to, said);
    check_rows(from, said.rows, to);
    if (mode == UZ_LIVE && said.refused != UZ_UNKNOWN_SIZE) {
        lent plain = plain_table(to);
        check(same_place(uz_whose_byte(from.bytes, from.length, start, size, parent, address,
                                       plain.table, plain.numbers, UZ_PLAIN),
                         said),
              "a payload is 17 in live mode, or the same in both");
        check(same_table(plain, to), "and its rows too");
    }
    pointed asked = {start, size, parent, address};
    lent chain = lend(chains, UZ_MOST_LINKS, address % 2 != 0);
    uz_owned owned = owner(from, asked, chain);
    if (said.refused == UZ_ACCEPTED)
        check(is_row_of(to, said, owned, chain), "the owner is the row that was named");
    return said;
}

// The tables of uz_open, each in memory of its own: the large ones, and those of the random tests.
static arena large_five[FIVE], small_five[FIVE], plain_five[FIVE];

static void lend_five(lent to[FIVE], const arena in[FIVE], const size_t numbers[FIVE], bool front) {
    for (size_t i = 0; i < FIVE; i++)
        to[i] = lend(in[i], numbers[i], front);
}

static uz_opened call_open(recording from, const lent to[FIVE], uint32_t in_mode) {
    return uz_open(from.bytes, from.length, to[0].table, to[0].numbers, to[1].table, to[1].numbers,
                   to[2].table, to[2].numbers, to[3].table, to[3].numbers, to[4].table,
                   to[4].numbers, in_mode);
}

static uz_opened open_all(recording from, const lent to[FIVE]) {
    uz_opened said = call_open(from, to, mode);
    check_open(from, to, said);
    for (size_t i = 0; i < FIVE; i++)
        check_rows(from, found_in(&said, i)->rows, to[i]);
    if (mode == UZ_LIVE && from.length <= UZ_MOST_BYTES && !may_differ(from)) {
        lent plain[FIVE];
        for (size_t i = 0; i < FIVE; i++)
            plain[i] = lend((arena){plain_five[i].first, to[i].in.size}, to[i].numbers, false);
        check(is_opened(call_open(from, plain, UZ_PLAIN), said),
              "without unknown sizes both modes open the same");
        for (size_t i = 0; i < FIVE; i++)
            check(same_table(plain[i], to[i]), "and the same rows of each part");
    }
    return said;
}

// ---- Recordings that are written here ----

typedef struct {
    uint8_t bytes[1 << 16];
    size_t length;
} written;

static void put_byte(written *to, unsigned byte) {
    if (to->length == sizeof to->bytes)
        give_up("a recording is too long to write");
    to->bytes[to->length++] = (uint8_t)byte;
}

static void put_number(written *to, uint64_t number, unsigned bytes) {
    while (bytes-- > 0)
        put_byte(to, number >> 8 * bytes & 0xFF);
}

static void put_id(written *to, uint32_t id) {
    put_number(to, id, id > 0xFFFFFF ? 4 : id > 0xFFFF ? 3 : id > 0xFF ? 2 : 1);
}

// A master is opened with a size of two bytes, which is known when it is closed.
static size_t open_master(written *to, uint32_t id) {
    put_id(to, id);
    put_number(to, 0, 2);
    return to->length;
}

static void close_master(written *to, size_t mark) {
    size_t size = to->length - mark;
    if (size >= 0x3FFF)
        give_up("a master is too long to write");
    to->bytes[mark - 2] = (uint8_t)(0x40 | size >> 8);
    to->bytes[mark - 1] = (uint8_t)(size & 0xFF);
}

static void put_unsigned(written *to, uint32_t id, uint64_t number, unsigned bytes) {
    put_id(to, id);
    put_byte(to, 0x80 | bytes);
    put_number(to, number, bytes);
}

// A text with so many zero bytes behind it.
static void put_padded(written *to, uint32_t id, const char *text, unsigned zeros) {
    put_id(to, id);
    put_byte(to, 0x80 | ((unsigned)strlen(text) + zeros));
    while (*text != '\0')
        put_byte(to, (uint8_t)*text++);
    while (zeros-- > 0)
        put_byte(to, 0);
}

static void put_text(written *to, uint32_t id, const char *text) {
    put_padded(to, id, text, 0);
}

// A seek entry with a position of eight bytes. Answers where the position is.
static size_t put_seek(written *to, uint32_t id, uint64_t position) {
    size_t seek = open_master(to, SEEK);
    put_unsigned(to, SEEK_ID, id, 4);
    put_unsigned(to, SEEK_POSITION, position, 8);
    close_master(to, seek);
    return to->length - 8;
}

static void set_position(written *to, size_t at, uint64_t position) {
    size_t length = to->length;
    to->length = at;
    put_number(to, position, 8);
    to->length = length;
}

static int hex_digit(char digit) {
    return digit <= '9' ? digit - '0' : digit - 'A' + 10;
}

static void put_hex(written *to, const char *digits) {
    for (; digits[0] != '\0' && digits[1] != '\0'; digits += 2)
        put_byte(to, (unsigned)(hex_digit(digits[0]) * 16 + hex_digit(digits[1])));
}

static written *clean(void) {
    static written scratch;
    scratch.length = 0;
    return &scratch;
}

static recording hex(const char *digits, bool front) {
    written *made = clean();
    put_hex(made, digits);
    return placed(made->bytes, made->length, front);
}

// One chapter, with the chapters inside it.
static void put_chapter(written *to, const char *name, uint64_t start, unsigned inside) {
    size_t atom = open_master(to, 0xB6);
    put_unsigned(to, 0x73C4, start + inside, 3);
    put_unsigned(to, 0x91, start, 5);
    size_t display = open_master(to, 0x80);
    put_padded(to, 0x85, name, inside);
    put_text(to, 0x437C, "eng");
    close_master(to, display);
    if (inside > 0)
        put_chapter(to, "inner \xC3\xA4\xE2\x82\xAC\xF0\x9F\x94\xA7", start, inside - 1);
    close_master(to, atom);
}

static void put_tag(written *to, const char *name, const char *value) {
    size_t tag = open_master(to, 0x7373);
    size_t targets = open_master(to, 0x63C0);
    put_unsigned(to, 0x68CA, 50, 1);
    close_master(to, targets);
    size_t simple = open_master(to, 0x67C8);
    put_text(to, 0x45A3, name);
    put_text(to, 0x4487, value);
    close_master(to, simple);
    close_master(to, tag);
}

static void put_tags(written *to) {
    size_t tags = open_master(to, UZ_TAGS);
    put_tag(to, "rail", "5V");
    put_tag(to, "baud", "115200");
    close_master(to, tags);
}

static void put_info(written *to) {
    size_t info = open_master(to, UZ_INFO);
    put_text(to, 0x7BA9, "cold boot");
    put_unsigned(to, 0x4489, UINT64_C(0x40C28E0000000000), 8);
    put_unsigned(to, 0x2AD7B1, 1000000, 3);
    put_unsigned(to, DATE, 1000, 8);
    put_unsigned(to, 0xE0, 0, 1);
    size_t translate = open_master(to, 0x6924);
    put_unsigned(to, 0x69BF, 1, 1);
    close_master(to, translate);
    close_master(to, info);
}

static void put_tracks(written *to) {
    size_t tracks = open_master(to, UZ_TRACKS);
    size_t entry = open_master(to, 0xAE);
    put_unsigned(to, 0xD7, 1, 1);
    put_unsigned(to, 0x83, 2, 1);
    put_text(to, 0x86, "A_PCM/INT/LIT");
    size_t audio = open_master(to, 0xE1);
    put_unsigned(to, 0xB5, UINT64_C(0x40E7700000000000), 8);
    put_unsigned(to, 0x9F, 2, 0);
    close_master(to, audio);
    put_unsigned(to, 0x4461, 1000, 8);
    put_unsigned(to, 0xFB, 0xFF, 1);
    close_master(to, entry);
    close_master(to, tracks);
}

// A recording like the bench kit's: two linked seek heads, info, tracks, an attachment, nested
// chapters, tags, and some elements of each kind.
static void put_sample(written *to) {
    static const uint32_t ids[] = {UZ_TRACKS, UZ_ATTACHMENTS, UZ_CHAPTERS,
                                   UZ_TAGS,   SEEK_HEAD,      UZ_INFO};
    size_t places[6], positions[6];
    size_t ebml = open_master(to, 0x1A45DFA3);
    put_text(to, 0x4282, "matroska");
    close_master(to, ebml);
    size_t segment = open_master(to, SEGMENT);
    size_t head = open_master(to, SEEK_HEAD);
    for (size_t i = 0; i < 6; i++)
        places[i] = i == 3 ? 0 : put_seek(to, ids[i], 0);
    close_master(to, head);
    put_text(to, VOID, "passed over");

    positions[5] = to->length;
    put_info(to);

    positions[0] = to->length;
    put_tracks(to);

    positions[1] = to->length;
    size_t attachments = open_master(to, UZ_ATTACHMENTS);
    size_t file = open_master(to, 0x61A7);
    put_text(to, 0x466E, "board.dts");
    put_text(to, 0x465C, "\x01\xFF\xFE");
    close_master(to, file);
    close_master(to, attachments);

    positions[2] = to->length;
    size_t chapters = open_master(to, UZ_CHAPTERS);
    size_t edition = open_master(to, 0x45B9);
    put_unsigned(to, 0x45BC, 7, 1);
    put_chapter(to, "SPL", 0, 0);
    put_chapter(to, "U-Boot", 1000000, 2);
    put_chapter(to, "", 2000000, 11);
    close_master(to, edition);
    put_text(to, VOID, "");
    close_master(to, chapters);

    positions[4] = to->length;
    size_t second = open_master(to, SEEK_HEAD);
    places[3] = put_seek(to, UZ_TAGS, 0);
    close_master(to, second);

    positions[3] = to->length;
    put_tags(to);
    close_master(to, segment);
    for (size_t i = 0; i < 6; i++)
        set_position(to, places[i], positions[i] - segment);
}

// ---- Worked cases ----

// The worked example of document 01, every number of it.
static void test_example(void) {
    static const char bytes[] = "18538067A2114D9B748E4DBB8B53AB841254C36753AC8113"
                                "1254C3678A73738767C88445A38141";
    static const uint64_t rows[3 * UZ_WIDTH] = {
        0x7373, 0, 29, 3, 7, UZ_MASTER, 0, 3, //
        0x67C8, 1, 32, 3, 4, UZ_MASTER, 1, 3, //
        0x45A3, 2, 35, 3, 1, UZ_UTF8,   2, 3, //
    };
    about = "document 01's 39 bytes";
    recording from = hex(bytes, false);
    check(from.length == 39, "39 bytes");
    for (size_t i = 0; i < 4; i++) {
        lent to = lend(large_tables, 5 * UZ_WIDTH, i % 2 != 0);
        uz_part said = find_part(from, parts[i], to);
        uz_part absent = {0, 0, 0, 0, 0, 0, 0, 1};
        uz_part tags = {0, 0, 0, 1, 29, 10, 3, 1};
        check(is_part(said, parts[i] == UZ_TAGS ? tags : absent), "the reply");
        if (parts[i] == UZ_TAGS)
            check(memcmp(to.table, rows, sizeof rows) == 0, "the rows");
    }
    // Byte by byte: which row, and whether its payload holds the byte.
    static const unsigned owner[10][2] = {{0, 0}, {0, 0}, {0, 0}, {1, 0}, {1, 0},
                                          {1, 0}, {2, 0}, {2, 0}, {2, 0}, {2, 1}};
    for (unsigned i = 0; i < 10; i++) {
        lent to = lend(large_tables, 3 * UZ_WIDTH, i % 2 != 0);
        uz_place due = {0, 0, owner[i][0], owner[i][1], 3};
        check(same_place(whose_byte(from, 29, 10, UZ_UNDER_TAGS, 29 + i, to), due), "the owner");
        check(memcmp(to.table, rows, sizeof rows) == 0, "the rows of the address question");
    }
}

// A master in a master, a leaf in that and one behind both: every number of the rows.
static void test_after(void) {
    static const uint64_t rows[4 * UZ_WIDTH] = {
        0xA0, 0, 0, 2, 4, UZ_MASTER, 0, 3, //
        0xA0, 1, 2, 2, 2, UZ_MASTER, 1, 3, //
        0xEC, 2, 4, 2, 0, UZ_BINARY, 2, 3, //
        0xEC, 0, 6, 2, 0, UZ_BINARY, 0, 4, //
    };
    about = "document 02's 8 bytes";
    recording from = hex("A084A082EC80EC80", false);
    for (uint64_t i = 0; i < from.length; i++) {
        lent to = lend(large_tables, 5 * UZ_WIDTH, i % 2 != 0);
        uz_place due = {0, 0, i / 2, 0, 4};
        check(same_place(whose_byte(from, 0, from.length, 0, i, to), due), "the owner");
        check(memcmp(to.table, rows, sizeof rows) == 0, "the rows");
    }
}

typedef struct {
    const char *bytes;
    uint32_t part;
    size_t rows; // of the table that is lent
    uz_part due;
} part_case;

// clang-format off
static const part_case part_cases[] = {
    // 1: nothing at all; no segment; a seek entry past the end; the part cut short.
    {"", UZ_TAGS, 1, {1, 0, 0, 0, 0, 0, 0, 0}},
    {"EC81", UZ_TAGS, 1, {1, 0, 3, 0, 0, 0, 0, 0}},
    {"1853806784EC81", UZ_TAGS, 0, {1, 0, 8, 0, 0, 0, 0, 0}},
    {"0000", UZ_TAGS, 1, {1, 0, 0, 0, 0, 0, 0, 0}},
    {"1853806793114D9B748E4DBB8B53AB841254C36753AC8113", UZ_TAGS, 1, {1, 0, 24, 0, 0, 0, 0, 0}},
    {"18538067871254C3678285", UZ_TAGS, 1, {1, 0, 10, 0, 0, 0, 0, 0}},
    // The body that the recording ends in: its header, not its payload. An entry that leads as far
    // away as one can.
    {"185380678A1254C3678545A38241", UZ_TAGS, 1, {1, 0, 10, 0, 0, 0, 0, 0}},
    {"185380679A114D9B74954DBB9253AB841254C36753AC88FFFFFFFFFFFFFFFA",
     UZ_TAGS, 0, {1, 0, UINT64_MAX, 0, 0, 0, 0, 0}},
    // 2 and 3: ids and sizes that are too long; a child that overruns; an element that does.
    {"0F80", UZ_TAGS, 1, {2, 0, 0, 0, 0, 0, 0, 0}},
    {"0001", UZ_TAGS, 1, {2, 0, 0, 0, 0, 0, 0, 0}},
    {"AE0001", UZ_TAGS, 1, {3, 0, 0, 0, 0, 0, 0, 0}},
    {"1853806781EC80", UZ_TAGS, 0, {3, 0, 5, 0, 0, 0, 0, 0}},
    {"18538067871254C36782EC8141", UZ_TAGS, 1, {3, 0, 10, 0, 0, 0, 0, 0}},
    {"1853806782EC8100", UZ_TAGS, 1, {3, 0, 5, 0, 0, 0, 0, 0}},
    // A child of a seek head, and of a Seek, that overruns: not the first child, and not the head.
    {"185380678A114D9B7484EC80EC8141", UZ_TAGS, 0, {3, 0, 12, 0, 0, 0, 0, 0}},
    {"185380678D114D9B74884DBB84EC80EC8141", UZ_TAGS, 0, {3, 0, 15, 0, 0, 0, 0, 0}},
    // A sought header that is none: the sought address, not that of the entry.
    {"1853806795114D9B748E4DBB8B53AB841254C36753AC81130F80", UZ_TAGS, 1, {2, 0, 24, 0, 0, 0, 0, 0}},
    {"1853806796114D9B748E4DBB8B53AB84114D9B7453AC8113AE0001", UZ_TAGS, 1, {3, 0, 24, 0, 0, 0, 0, 0}},
    // 4 to 7: bodies.
    {"18538067871254C367828389", UZ_TAGS, 1, {4, 0, 10, 0, 0, 0, 0, 0}},
    {"18538067871254C36782FB89", UZ_TAGS, 1, {4, 0, 10, 0, 0, 0, 0, 0}},
    {"18538067871254C36782B580", UZ_TAGS, 1, {5, 0, 10, 0, 0, 0, 0, 0}},
    {"18538067881254C36783446187", UZ_TAGS, 1, {6, 0, 10, 0, 0, 0, 0, 0}},
    {"185380678A1254C3678545A382C080", UZ_TAGS, 1, {7, 0, 10, 0, 0, 0, 0, 0}},
    {"185380678A1254C3678545A382C2A0", UZ_TAGS, 1, {0, 0, 0, 1, 10, 5, 1, 0}},
    // 8 to 10: the entries. The id of 8 is the entry's.
    {"185380679A114D9B74954DBB9253AB84114D9B7453AC88FFFFFFFFFFFFFFFF",
     UZ_TAGS, 0, {8, SEEK_HEAD, 5, 0, 0, 0, 0, 0}},
    {"185380679A114D9B74954DBB9253AB841254C36753AC88FFFFFFFFFFFFFFFF",
     UZ_TAGS, 0, {8, UZ_TAGS, 5, 0, 0, 0, 0, 0}},
    // The last head that was read is the one behind the head with the entry.
    {"18538067AD114D9B74A34DBB9253AB841254C36753AC88FFFFFFFFFFFFFFFF4DBB8B53AB84114D9B7453AC8128114D9B7480",
     UZ_TAGS, 0, {8, UZ_TAGS, 45, 0, 0, 0, 0, 0}},
    {"185380679A114D9B74954DBB9253AB841254C36753AC88FFFFFFFFFFFFFFFF",
     UZ_CHAPTERS, 0, {0, 0, 0, 0, 0, 0, 0, 1}},
    {"1853806793114D9B748E4DBB8B53AB841254C36753AC8100", UZ_TAGS, 1, {9, 0, 5, 0, 0, 0, 0, 0}},
    {"1853806793114D9B748E4DBB8B53AB841254C36753AC8100", UZ_TRACKS, 1, {0, 0, 0, 0, 0, 0, 0, 1}},
    {"1853806793114D9B748E4DBB8B53AB84114D9B7453AC8100", UZ_TAGS, 1, {10, 0, 5, 0, 0, 0, 0, 0}},
    {"1853806795114D9B748E4DBB8B53AB84114D9B7453AC8113EC80", UZ_TAGS, 1, {9, 0, 24, 0, 0, 0, 0, 0}},
    // Two heads that name each other: the first would be read once more, after the second.
    {"18538067A2114D9B748E4DBB8B53AB84114D9B7453AC8113114D9B748A4DBB8753AB84114D9B74",
     UZ_TAGS, 0, {10, 0, 5, 0, 0, 0, 0, 0}},
    // The last entry of an id wins.
    {"18538067A6114D9B749C4DBB8B53AB841254C36753AC81004DBB8B53AB841254C36753AC81211254C36780",
     UZ_TAGS, 0, {0, 0, 0, 1, 43, 0, 0, 1}},
    {"18538067A6114D9B749C4DBB8B53AB841254C36753AC81214DBB8B53AB841254C36753AC81001254C36780",
     UZ_TAGS, 0, {9, 0, 5, 0, 0, 0, 0, 0}},
    // Any master is one directly below each part.
    {"185380678A1654AE6B85E083B08101", UZ_TRACKS, 2, {0, 0, 0, 1, 10, 5, 2, 0}},
    {"185380678A1941A46985E083B08101", UZ_ATTACHMENTS, 2, {0, 0, 0, 1, 10, 5, 2, 0}},
    {"185380678A1043A77085E083B08101", UZ_CHAPTERS, 2, {0, 0, 0, 1, 10, 5, 2, 0}},
    {"185380678A1254C36785E083B08101", UZ_TAGS, 2, {0, 0, 0, 1, 10, 5, 2, 0}},
    // 12: in a seek head, and in the part; depth 15 is accepted.
    {"18538067A7114D9B74A2AEA0AE9EAE9CAE9AAE98AE96AE94AE92AE90AE8EAE8CAE8AAE88AE86AE84AE82AE80",
     UZ_TAGS, 0, {12, 0, 42, 0, 0, 0, 0, 0}},
    {"18538067A71254C367A2AEA0AE9EAE9CAE9AAE98AE96AE94AE92AE90AE8EAE8CAE8AAE88AE86AE84AE82AE80",
     UZ_TAGS, 17, {12, 0, 42, 0, 0, 0, 0, 0}},
    {"18538067A51254C367A0AE9EAE9CAE9AAE98AE96AE94AE92AE90AE8EAE8CAE8AAE88AE86AE84AE82AE80",
     UZ_TAGS, 16, {0, 0, 0, 1, 10, 32, 16, 0}},
    // 13: one row too few, and none. An empty part needs none.
    {"18538067891254C36784EC80EC80", UZ_TAGS, 1, {13, 0, 12, 0, 0, 0, 0, 0}},
    {"18538067891254C36784EC80EC80", UZ_TAGS, 2, {0, 0, 0, 1, 10, 4, 2, 0}},
    {"18538067871254C36782EC80", UZ_TAGS, 0, {13, 0, 10, 0, 0, 0, 0, 0}},
    {"18538067851254C36780", UZ_TAGS, 0, {0, 0, 0, 1, 10, 0, 0, 0}},
    // 14: no part of the four, before anything in the recording.
    {"0F80", 0, 1, {14, 0, 0, 0, 0, 0, 0, 0}},
    {"0F80", SEEK_HEAD, 1, {14, 0, 0, 0, 0, 0, 0, 0}},
    {"0F80", UZ_UNDER_TAGS, 1, {14, 0, 0, 0, 0, 0, 0, 0}},
    {"0F80", UINT32_MAX, 1, {14, 0, 0, 0, 0, 0, 0, 0}},
    // Absent: an empty segment; a head that does not name it. A part may pass its segment's end.
    {"1853806780", UZ_TAGS, 1, {0, 0, 0, 0, 0, 0, 0, 0}},
    {"185380678A114D9B74801254C36780", UZ_TAGS, 0, {0, 0, 0, 0, 0, 0, 0, 1}},
    {"18538067811254C36782EC80", UZ_TAGS, 1, {0, 0, 0, 1, 10, 2, 1, 0}},
};
// clang-format on

static void test_parts(void) {
    for (size_t i = 0; i < sizeof part_cases / sizeof *part_cases; i++) {
        const part_case *asked = &part_cases[i];
        about = asked->bytes;
        for (unsigned front = 0; front < 2; front++) {
            recording from = hex(asked->bytes, front != 0);
            lent to = lend(large_tables, asked->rows * UZ_WIDTH, front != 0);
            check(is_part(find_part(from, asked->part, to), asked->due), "the worked reply");
        }
    }
}

// A chain of linked heads, the last of which names Tags.
static void test_chain(unsigned heads, uint64_t refused) {
    about = "a chain of heads";
    written *to = clean();
    size_t segment = open_master(to, SEGMENT);
    size_t last = 0;
    for (unsigned i = 0; i < heads; i++) {
        last = to->length;
        size_t head = open_master(to, SEEK_HEAD);
        size_t place = put_seek(to, i + 1 < heads ? SEEK_HEAD : UZ_TAGS, 0);
        close_master(to, head);
        set_position(to, place, to->length - segment);
    }
    put_id(to, UZ_TAGS);
    put_byte(to, 0x80);
    close_master(to, segment);
    recording from = placed(to->bytes, to->length, false);
    uz_part said = find_part(from, UZ_TAGS, lend(small_tables, 0, false));
    check(said.refused == refused, "64 heads are read, and no 65th");
    check(refused != UZ_ACCEPTED || (said.found == 1 && said.heads == heads), "heads are counted");
    static const size_t none[FIVE] = {0};
    lent tables[FIVE];
    lend_five(tables, small_five, none, false);
    uz_opened opened = open_all(from, tables);
    check(opened.refused == refused && opened.heads == (refused == UZ_ACCEPTED ? heads : 0),
          "all parts at once come as far");
    if (refused == UZ_ACCEPTED)
        return;
    // The 65th is told by its address, though nothing is there.
    uz_part due = {refused, 0, last, 0, 0, 0, 0, 0};
    check(is_part(said, due), "the address of the 65th head");
    from = placed(to->bytes, last, false);
    said = find_part(from, UZ_TAGS, lend(small_tables, 0, false));
    check(is_part(said, due), "the address of the 65th head, cut off before it");
}

// ---- All parts at once ----

typedef struct {
    const char *bytes;
    size_t rows[FIVE];     // of the tables that are lent
    uz_opened plain, live; // Info, Tracks, Attachments, Chapters, Tags
} open_case;

#define NONE                                                                                       \
    { 0, 0, 0, 0 }
#define REFUSED(number, id, at)                                                                    \
    { number, id, at, 0, NONE, NONE, NONE, NONE, NONE }
#define TAGS_AT(heads, at, size, rows)                                                             \
    {                                                                                              \
        0, 0, 0, heads, NONE, NONE, NONE, NONE, {                                                  \
            1, at, size, rows                                                                      \
        }                                                                                          \
    }
#define INFO_AT(heads, at, size, rows)                                                             \
    { 0, 0, 0, heads, {1, at, size, rows}, NONE, NONE, NONE, NONE }
#define ABSENT(heads)                                                                              \
    { 0, 0, 0, heads, NONE, NONE, NONE, NONE, NONE }

// clang-format off
static const open_case open_cases[] = {
    // Nothing; no segment; an empty one. An empty part is told from an absent one.
    {"", {1, 1, 1, 1, 1}, REFUSED(1, 0, 0), REFUSED(1, 0, 0)},
    {"EC80", {0, 0, 0, 0, 0}, REFUSED(1, 0, 2), REFUSED(1, 0, 2)},
    {"1853806780", {0, 0, 0, 0, 0}, ABSENT(0), ABSENT(0)},
    {"18538067851254C36780", {0, 0, 0, 0, 0}, TAGS_AT(0, 10, 0, 0), TAGS_AT(0, 10, 0, 0)},
    // Without a head the last of each part stands. Each is read, also one that a later one replaces.
    {"185380678A1254C367801254C36780", {0, 0, 0, 0, 0}, TAGS_AT(0, 15, 0, 0), TAGS_AT(0, 15, 0, 0)},
    {"185380678C1254C36782EC801254C36780", {1, 1, 1, 1, 0}, REFUSED(13, 0, 10), REFUSED(13, 0, 10)},
    {"185380678C1254C36782EC801254C36780", {0, 0, 0, 0, 1}, TAGS_AT(0, 17, 0, 0), TAGS_AT(0, 17, 0, 0)},
    // A part that was met stands until a sought one replaces it; and it stays if no entry names it.
    {"185380679F1254C36780114D9B748E4DBB8B53AB841254C36753AC81181254C36782EC80", {0, 0, 0, 0, 1},
     TAGS_AT(1, 34, 2, 1), TAGS_AT(1, 34, 2, 1)},
    {"185380678F1254C36780114D9B74801254C36780", {0, 0, 0, 0, 0}, TAGS_AT(1, 10, 0, 0), TAGS_AT(1, 10, 0, 0)},
    // Behind a head nothing is met.
    {"185380678A114D9B74801254C36780", {0, 0, 0, 0, 0}, ABSENT(1), ABSENT(1)},
    // 3 for a part that was met and overruns the segment, after its own refusals; not for a head, nor for a sought
    // part outside the segment.
    {"18538067841254C36780", {0, 0, 0, 0, 0}, REFUSED(3, 0, 5), REFUSED(3, 0, 5)},
    {"18538067841254C36782EC80", {0, 0, 0, 0, 0}, REFUSED(13, 0, 10), REFUSED(13, 0, 10)},
    {"1853806785114D9B7482EC80", {0, 0, 0, 0, 0}, ABSENT(1), ABSENT(1)},
    {"1853806793114D9B748E4DBB8B53AB841254C36753AC81131254C36782EC80", {0, 0, 0, 0, 1},
     TAGS_AT(1, 29, 2, 1), TAGS_AT(1, 29, 2, 1)},
    // After a head Info comes first, whatever the order of the entries; before it the order is the file's.
    {"18538067A1114D9B749C4DBB8B53AB841254C36753AC81004DBB8B53AB841549A96653AC8105", {1, 1, 1, 1, 1},
     REFUSED(9, 0, 10), REFUSED(9, 0, 10)},
    {"185380678E1254C36782EC801549A96682EC80", {0, 0, 0, 0, 0}, REFUSED(13, 0, 10), REFUSED(13, 0, 10)},
    {"185380678E1549A96682EC801254C36782EC80", {0, 0, 0, 0, 0}, REFUSED(13, 0, 10), REFUSED(13, 0, 10)},
    // 8 names Info, or the next head; its address is the last head's.
    {"185380679A114D9B74954DBB9253AB841549A96653AC88FFFFFFFFFFFFFFFF", {0, 0, 0, 0, 0},
     REFUSED(8, UZ_INFO, 5), REFUSED(8, UZ_INFO, 5)},
    {"185380679A114D9B74954DBB9253AB84114D9B7453AC88FFFFFFFFFFFFFFFF", {0, 0, 0, 0, 0},
     REFUSED(8, SEEK_HEAD, 5), REFUSED(8, SEEK_HEAD, 5)},
    // 10: a head that names itself. 9 and 1: where the entry for Info leads.
    {"1853806793114D9B748E4DBB8B53AB84114D9B7453AC8100", {0, 0, 0, 0, 0}, REFUSED(10, 0, 5), REFUSED(10, 0, 5)},
    {"1853806795114D9B748E4DBB8B53AB841549A96653AC8113EC80", {0, 0, 0, 0, 0}, REFUSED(9, 0, 24), REFUSED(9, 0, 24)},
    {"1853806793114D9B748E4DBB8B53AB841549A96653AC8113", {0, 0, 0, 0, 0}, REFUSED(1, 0, 24), REFUSED(1, 0, 24)},
    // Info is read under its own id: an E0 there is bytes. In Tags it is a master, and so a header is looked for in it.
    {"18538067881549A96683E08100", {1, 0, 0, 0, 0}, INFO_AT(0, 10, 3, 1), INFO_AT(0, 10, 3, 1)},
    {"18538067881254C36783E08100", {0, 0, 0, 0, 2}, REFUSED(1, 0, 12), REFUSED(1, 0, 12)},
    {"185380678A1549A966854461820000", {9, 0, 0, 0, 0}, REFUSED(6, 0, 10), REFUSED(6, 0, 10)},
    // Live mode: a Segment of unknown size; a part of unknown size; Tags behind a Cluster; at a sought address.
    {"18538067FF1254C367FF", {0, 0, 0, 0, 1}, REFUSED(1, 0, 10), REFUSED(17, 0, 5)},
    {"18538067FF1254C36780", {0, 0, 0, 0, 0}, REFUSED(1, 0, 10), TAGS_AT(0, 10, 0, 0)},
    {"18538067FF1F43B675FFA381001254C36782EC80", {0, 0, 0, 0, 1}, REFUSED(3, 0, 5), TAGS_AT(0, 18, 2, 1)},
    {"18538067FF1549A966801F43B675FF1549A96680", {0, 0, 0, 0, 0}, REFUSED(3, 0, 10), INFO_AT(0, 20, 0, 0)},
    {"1853806798114D9B748E4DBB8B53AB841549A96653AC81131549A966FF", {1, 0, 0, 0, 0},
     REFUSED(1, 0, 29), REFUSED(17, 0, 24)},
    {"1853806798114D9B748E4DBB8B53AB841549A96653AC81131F43B675FF", {1, 0, 0, 0, 0},
     REFUSED(9, 0, 24), REFUSED(9, 0, 24)},
};
// clang-format on

static void test_openings(void) {
    for (unsigned n = 0; n < 4; n++) {
        mode = n / 2 == 0 ? UZ_PLAIN : UZ_LIVE;
        for (size_t i = 0; i < sizeof open_cases / sizeof *open_cases; i++) {
            const open_case *asked = &open_cases[i];
            about = asked->bytes;
            size_t numbers[FIVE];
            for (size_t k = 0; k < FIVE; k++)
                numbers[k] = asked->rows[k] * UZ_WIDTH;
            lent to[FIVE];
            lend_five(to, small_five, numbers, n % 2 != 0);
            check(is_opened(open_all(hex(asked->bytes, n % 2 != 0), to),
                            mode == UZ_LIVE ? asked->live : asked->plain),
                  "the worked parts");
        }
    }
    mode = UZ_PLAIN;
}

// A length that is refused, of each of the five tables in turn: 14, and all five are zeros.
static void test_five_lengths(void) {
    about = "the lengths of five tables";
    static const size_t broken[] = {1, 7, 9, 15, 32767, 32769, 32776};
    recording from = hex("18538067851254C36780", false);
    uz_opened due = REFUSED(UZ_BAD_ARGUMENT, 0, 0);
    for (size_t i = 0; i < FIVE; i++)
        for (size_t k = 0; k < sizeof broken / sizeof *broken; k++) {
            size_t numbers[FIVE] = {8, 0, 16, 8, 0};
            numbers[i] = broken[k];
            lent to[FIVE];
            lend_five(to, large_five, numbers, k % 2 != 0);
            check(is_opened(open_all(from, to), due), "14 for one of five lengths");
        }
    static const size_t most[FIVE] = {UZ_MOST_NUMBERS, UZ_MOST_NUMBERS, UZ_MOST_NUMBERS,
                                      UZ_MOST_NUMBERS, UZ_MOST_NUMBERS};
    lent to[FIVE];
    lend_five(to, large_five, most, false);
    uz_opened tags = TAGS_AT(0, 10, 0, 0);
    check(is_opened(open_all(from, to), tags), "five tables of 4,096 rows");
}

// The sample, with tables that have a row for each element, and each of them with one row less.
static void test_open_sample(void) {
    about = "all parts of the sample";
    static const size_t rows[FIVE] = {7, 9, 3, 99, 12};
    written *made = clean();
    put_sample(made);
    recording from = placed(made->bytes, made->length, false);
    for (size_t less = 0; less <= FIVE; less++) {
        size_t numbers[FIVE];
        lent to[FIVE];
        for (size_t i = 0; i < FIVE; i++)
            numbers[i] = (rows[i] - (i == less)) * UZ_WIDTH;
        lend_five(to, small_five, numbers, less % 2 != 0);
        uz_opened said = open_all(from, to);
        if (less < FIVE) {
            check(said.refused == UZ_NO_FREE_ROW, "one row too few");
            continue;
        }
        check(said.refused == UZ_ACCEPTED && said.heads == 2, "the sample is opened");
        for (size_t i = 0; i < FIVE; i++)
            check(found_in(&said, i)->found == 1 && found_in(&said, i)->rows == rows[i],
                  "each part of the sample");
    }
}

// ---- Tables ----

// A Tags part of so many empty elements.
static recording siblings(unsigned count, bool front) {
    written *to = clean();
    size_t segment = open_master(to, SEGMENT);
    size_t tags = open_master(to, UZ_TAGS);
    for (unsigned i = 0; i < count; i++)
        put_hex(to, "EC80");
    close_master(to, tags);
    close_master(to, segment);
    return placed(to->bytes, to->length, front);
}

// A table's lengths, in plain numbers: those with whole rows and at most 4,096 of them are good.
static void test_lengths(void) {
    about = "a table's length";
    static const struct {
        size_t numbers;
        uint64_t rows; // 0 for a length that is refused
    } lengths[] = {{1, 0},     {6, 0},        {7, 0},        {8, 1},     {9, 0},
                   {15, 0},    {16, 2},       {49, 0},       {55, 0},    {56, 7},
                   {57, 0},    {28672, 3584}, {32760, 4095}, {32767, 0}, {32768, UZ_MOST_ROWS},
                   {32769, 0}, {32776, 0}};
    for (unsigned front = 0; front < 2; front++) {
        recording from = siblings(1, front != 0);
        for (size_t i = 0; i < sizeof lengths / sizeof *lengths; i++) {
            size_t numbers = lengths[i].numbers;
            uint64_t rows = lengths[i].rows;
            lent to = lend(large_tables, numbers, front != 0);
            uint64_t due = rows > 0 ? UZ_ACCEPTED : UZ_BAD_ARGUMENT;
            check(find_part(from, UZ_TAGS, to).refused == due, "part: 14, or a row");
            to = lend(large_tables, numbers, front != 0);
            due = rows > 0 ? UZ_OUTSIDE : UZ_BAD_ARGUMENT;
            check(whose_byte(from, 0, 1, 0, 99, to).refused == due, "whose: 14 comes before 15");
            to = lend(large_tables, numbers, front != 0);
            uz_range range = uz_row_payload(from.bytes, from.length, to.table, to.numbers, rows);
            check(is_range(range, UZ_BAD_ARGUMENT, 0, 0), "payload: 14");
            range = uz_shown_text(from.bytes, from.length, to.table, to.numbers, rows);
            check(is_range(range, UZ_BAD_ARGUMENT, 0, 0), "text: 14");
            check(all_are(to.table, to.table + to.numbers, FILLED), "payload, text: only read");
            memset(to.table, 0, numbers * sizeof *to.table);
            if (rows == 0) {
                // A whole row of kind text, and a length that is refused all the same.
                if (numbers >= UZ_WIDTH)
                    to.table[UZ_KIND] = UZ_UTF8;
                check(is_range(shown_text(from, to, 0), UZ_BAD_ARGUMENT, 0, 0), "text: 14 again");
                continue;
            }
            range = uz_row_payload(from.bytes, from.length, to.table, to.numbers, rows - 1);
            check(is_range(range, UZ_ACCEPTED, 0, 0), "payload: the last row, unused");
            check(is_range(shown_text(from, to, rows - 1), UZ_BAD_ARGUMENT, 0, 0),
                  "text: an unused row is none");
            to.table[(rows - 1) * UZ_WIDTH + UZ_KIND] = UZ_STRING;
            check(is_range(shown_text(from, to, rows - 1), UZ_ACCEPTED, 0, 0),
                  "text: the last row, empty");
        }
    }
}

static void test_tables(void) {
    about = "a full table";
    static const unsigned rows[] = {0, 1, 2, UZ_MOST_ROWS - 1, UZ_MOST_ROWS};
    for (size_t i = 0; i < sizeof rows / sizeof *rows; i++) {
        for (unsigned front = 0; front < 2; front++) {
            size_t numbers = (size_t)rows[i] * UZ_WIDTH;
            recording from = siblings(rows[i], front != 0);
            lent to = lend(large_tables, numbers, front != 0);
            uz_part said = find_part(from, UZ_TAGS, to);
            uz_part due = {0, 0, 0, 1, 12, 2 * (uint64_t)rows[i], rows[i], 0};
            check(is_part(said, due), "as many elements as rows");
            if (rows[i] > 0) {
                uint64_t last = said.at + said.size - 1;
                uz_place owner = {0, 0, rows[i] - 1, 0, rows[i]};
                to = lend(large_tables, numbers, front != 0);
                check(same_place(whose_byte(from, said.at, said.size, 0, last, to), owner),
                      "the last byte is the last row's");
            }
            from = siblings(rows[i] + 1, front != 0);
            to = lend(large_tables, numbers, front != 0);
            uint64_t size = 2 * (uint64_t)rows[i] + 2;
            uz_part full = {UZ_NO_FREE_ROW, 0, 12 + size - 2, 0, 0, 0, 0, 0};
            check(is_part(find_part(from, UZ_TAGS, to), full), "one element more");
            to = lend(large_tables, numbers, front != 0);
            uz_place again = {UZ_NO_FREE_ROW, 12 + size - 2, 0, 0, 0};
            check(same_place(whose_byte(from, 12, size, 0, 12, to), again), "and again");
        }
    }
}

// ---- Payloads by any table ----

// Rows beyond a table of two. The fifth is the first whose numbers would lie past 2^64.
static void check_beyond(recording from, lent in) {
    static const uint64_t beyond[] = {
        2,         3, UZ_MOST_ROWS, UINT32_MAX, UINT64_MAX / UZ_WIDTH + 1, UINT64_MAX / UZ_WIDTH,
        UINT64_MAX};
    for (size_t i = 0; i < sizeof beyond / sizeof *beyond; i++) {
        uz_range payload = uz_row_payload(from.bytes, from.length, in.table, in.numbers, beyond[i]);
        uz_range text = uz_shown_text(from.bytes, from.length, in.table, in.numbers, beyond[i]);
        check(is_range(payload, UZ_BAD_ARGUMENT, 0, 0), "a row beyond the table");
        check(is_range(text, UZ_BAD_ARGUMENT, 0, 0), "the text of a row beyond the table");
    }
}

static void test_payload(void) {
    about = "a row's payload";
    static const struct {
        uint64_t address, header, payload, refused;
    } asked[] = {
        {0, 0, 0, 0},
        {0, 2, 3, 0},
        {0, 0, 5, 0},
        {5, 0, 0, 0},
        {4, 1, 0, 0},
        {0, 2, 4, 14},
        {0, 6, 0, 14},
        {6, 0, 0, 14},
        {UINT64_MAX, 1, 0, 14},
        {UINT64_MAX, 0, 6, 14},
        {0, UINT64_MAX, 1, 14},
        {1, 1, UINT64_MAX - 1, 14},
        {UINT64_MAX, UINT64_MAX, UINT64_MAX, 14},
    };
    recording from = hex("EC83414243", false);
    for (size_t i = 0; i < sizeof asked / sizeof *asked; i++) {
        lent to = lend(large_tables, 2 * UZ_WIDTH, i % 2 != 0);
        uint64_t *row = to.table + UZ_WIDTH;
        row[UZ_ADDRESS] = asked[i].address;
        row[UZ_HEADER] = asked[i].header;
        row[UZ_PAYLOAD] = asked[i].payload;
        row[UZ_KIND] = i % 3 == 0 ? UZ_UTF8 : UZ_STRING;
        uint64_t before[2 * UZ_WIDTH];
        memcpy(before, to.table, sizeof before);
        // The table can't be written now.
        allow(to.in, PROT_READ);
        uz_range said = uz_row_payload(from.bytes, from.length, to.table, to.numbers, 1);
        bool good = asked[i].refused == 0;
        check(is_range(said, asked[i].refused, good ? asked[i].address + asked[i].header : 0,
                       good ? asked[i].payload : 0),
              "the range of made-up numbers");
        // None of the bytes is 0.
        check(same_range(shown_text(from, to, 1), said), "the text of made-up numbers");
        check_beyond(from, to);
        check(memcmp(before, to.table, sizeof before) == 0 && only_table(to), "a table only read");
        allow(to.in, PROT_READ | PROT_WRITE);
    }
    lent none = lend(large_tables, 0, false);
    check(
        is_range(uz_row_payload(from.bytes, from.length, none.table, 0, 0), UZ_BAD_ARGUMENT, 0, 0),
        "a table without rows");
    check(is_range(shown_text(from, none, 0), UZ_BAD_ARGUMENT, 0, 0), "no text without rows");
    recording empty = placed(from.bytes, 0, false);
    lent zero = lend(large_tables, UZ_WIDTH, false);
    memset(zero.table, 0, UZ_WIDTH * sizeof(uint64_t));
    check(is_range(uz_row_payload(empty.bytes, 0, zero.table, UZ_WIDTH, 0), UZ_ACCEPTED, 0, 0),
          "an unused row of an empty recording");
    zero.table[UZ_KIND] = UZ_UTF8;
    check(is_range(shown_text(empty, zero, 0), UZ_ACCEPTED, 0, 0), "the text of no bytes at all");
}

// ---- Texts by any table ----

typedef struct {
    const char *bytes;
    uint64_t address, header, payload, kind;
    uz_range due;
} text_case;

// clang-format off
static const text_case text_cases[] = {
    // No zero byte; a tail; a text over an older one; zeros alone; a zero first; nothing.
    {"524F4D", 0, 0, 3, UZ_UTF8, {0, 0, 3}},
    {"524F4D0000000000", 0, 0, 8, UZ_UTF8, {0, 0, 3}},
    {"8588524F4D0000000000", 0, 2, 8, UZ_UTF8, {0, 2, 3}},
    {"8588524F4D0000000000", 0, 2, 3, UZ_UTF8, {0, 2, 3}},
    {"8586524F4D00426F", 0, 2, 6, UZ_UTF8, {0, 2, 3}},
    {"524F4D0042006F", 0, 0, 7, UZ_STRING, {0, 0, 3}},
    {"0000000000000000", 0, 0, 8, UZ_UTF8, {0, 0, 0}},
    {"00", 0, 0, 1, UZ_STRING, {0, 0, 0}},
    {"00524F4D", 0, 0, 4, UZ_UTF8, {0, 0, 0}},
    {"00524F4D", 1, 0, 3, UZ_UTF8, {0, 1, 3}},
    {"8580", 0, 2, 0, UZ_UTF8, {0, 2, 0}},
    {"8580", 2, 0, 0, UZ_STRING, {0, 2, 0}},
    {"", 0, 0, 0, UZ_UTF8, {0, 0, 0}},
    // A zero byte behind the payload, and none in it.
    {"41420043", 0, 0, 2, UZ_UTF8, {0, 0, 2}},
    // Longer than any block that a reader may take at once, by a byte more or less.
    {"4141414141414141414141414141414141414141414141414141414141414100", 0, 0, 32, UZ_UTF8, {0, 0, 31}},
    {"4141414141414141414141414141414141414141414141414141414141414141", 0, 0, 32, UZ_UTF8, {0, 0, 32}},
    {"414141414141414141414141414141414141414141414141414141414141414100", 0, 0, 33, UZ_UTF8, {0, 0, 32}},
    {"4141414141414141414141414141414141414141414141414141414141414141410041", 1, 1, 33, UZ_UTF8, {0, 2, 31}},
    // Characters of several bytes before the zero; a control character that is none.
    {"C3A4E282ACF09F94A700", 0, 0, 10, UZ_UTF8, {0, 0, 9}},
    {"411B0A0142", 0, 0, 5, UZ_UTF8, {0, 0, 5}},
    // Any bytes, for a table of any numbers: none of them UTF-8, a character cut in two, bytes like
    // a zero in other widths.
    {"FFFE80C00041", 0, 0, 6, UZ_UTF8, {0, 0, 4}},
    {"E2820041", 0, 0, 4, UZ_STRING, {0, 0, 2}},
    {"8080808080808080FFFFFFFFFFFFFFFF0101010101010101C080", 0, 0, 26, UZ_UTF8, {0, 0, 26}},
    // Every other kind, kinds that are none, and those that are 4 or 5 in their lower bits alone.
    {"524F4D00", 0, 0, 4, 0, {14, 0, 0}},
    {"524F4D00", 0, 0, 4, UZ_MASTER, {14, 0, 0}},
    {"524F4D00", 0, 0, 4, UZ_SIGNED, {14, 0, 0}},
    {"524F4D00", 0, 0, 4, UZ_UNSIGNED, {14, 0, 0}},
    {"524F4D00", 0, 0, 4, UZ_BINARY, {14, 0, 0}},
    {"524F4D00", 0, 0, 4, UZ_FLOAT, {14, 0, 0}},
    {"524F4D00", 0, 0, 4, UZ_DATE, {14, 0, 0}},
    {"524F4D00", 0, 0, 4, 9, {14, 0, 0}},
    {"524F4D00", 0, 0, 4, 0x104, {14, 0, 0}},
    {"524F4D00", 0, 0, 4, UINT64_C(0x100000005), {14, 0, 0}},
    {"524F4D00", 0, 0, 4, UINT64_C(0x8000000000000004), {14, 0, 0}},
    {"524F4D00", 0, 0, 4, UINT64_MAX, {14, 0, 0}},
    {"", 0, 0, 0, 0, {14, 0, 0}},
    // A range that is not in the recording, though the text would end before.
    {"4100", 0, 0, 3, UZ_UTF8, {14, 0, 0}},
    {"4100", 0, 3, 0, UZ_UTF8, {14, 0, 0}},
    {"4100", 3, 0, 0, UZ_UTF8, {14, 0, 0}},
    {"4100", 0, 0, UINT64_MAX, UZ_UTF8, {14, 0, 0}},
    {"4100", 1, UINT64_MAX, 1, UZ_UTF8, {14, 0, 0}},
    {"4100", UINT64_MAX, 1, 1, UZ_STRING, {14, 0, 0}},
    {"4100", UINT64_MAX, UINT64_MAX, UINT64_MAX, UZ_STRING, {14, 0, 0}},
};
// clang-format on

// A table of one row, whose other numbers are FILLED, as no text needs them.
static lent made_up(const text_case *asked, bool front) {
    lent to = lend(small_tables, UZ_WIDTH, front);
    to.table[UZ_ADDRESS] = asked->address;
    to.table[UZ_HEADER] = asked->header;
    to.table[UZ_PAYLOAD] = asked->payload;
    to.table[UZ_KIND] = asked->kind;
    return to;
}

static void test_texts(void) {
    for (size_t i = 0; i < sizeof text_cases / sizeof *text_cases; i++) {
        const text_case *asked = &text_cases[i];
        about = asked->bytes;
        for (unsigned front = 0; front < 2; front++) {
            recording from = hex(asked->bytes, front != 0);
            lent to = made_up(asked, front != 0);
            allow(to.in, PROT_READ);
            check(same_range(shown_text(from, to, 0), asked->due), "the worked text");
            // For a refusal, and for no bytes, none is looked at.
            recording closed = {recordings.first + recordings.size, from.length};
            if (asked->due.refused != UZ_ACCEPTED || asked->payload == 0)
                check(same_range(shown_text(closed, to, 0), asked->due), "nothing is looked at");
            check(only_table(to), "shown_text writes nothing");
            allow(to.in, PROT_READ | PROT_WRITE);
        }
    }
}

// The bytes of a text stand alone: right before them and behind them is an inaccessible page,
// though the recording goes on there. Its zero byte is the last that may be looked at.
static void test_alone(void) {
    about = "a text alone";
    static uint8_t text[100];
    for (size_t length = 0; length < sizeof text; length++) {
        memset(text, 'A', length);
        text[length] = 0;
        for (unsigned front = 0; front < 2; front++) {
            recording bytes = placed(text, length + 1, front != 0);
            // The bytes of the recording before them or behind them: up to the most that it has.
            const size_t beside[] = {0, 1, 7, 64, 1 << 20, (size_t)UZ_MOST_BYTES - length - 1};
            for (size_t i = 0; i < sizeof beside / sizeof *beside; i++) {
                size_t before = front != 0 ? beside[i] : 0, behind = beside[i] - before;
                recording from = {(const uint8_t *)((uintptr_t)bytes.bytes - before),
                                  before + length + 1 + behind};
                text_case asked = {
                    "", before, 0, length + 1 + behind, UZ_UTF8, {UZ_ACCEPTED, before, length}};
                check(same_range(shown_text(from, made_up(&asked, front != 0), 0), asked.due),
                      "a text, and nothing beside it");
            }
        }
    }
}

// ---- The address question ----

typedef struct {
    const char *bytes;
    uint64_t start, size;
    uint32_t parent;
    uint64_t address;
    size_t rows; // of the table that is lent
    uz_place due;
} place_case;

// clang-format off
static const place_case place_cases[] = {
    // A setting of the bench, below a tag.
    {"67C88C45A3847261696C4487823556", 0, 15, 0x7373, 8, 4, {0, 0, 1, 1, 3}},
    {"67C88C45A3847261696C4487823556", 0, 15, 0x7373, 0, 4, {0, 0, 0, 0, 3}},
    {"67C88C45A3847261696C4487823556", 3, 12, 0x67C8, 14, 2, {0, 0, 1, 1, 2}},
    {"67C88C45A3847261696C4487823556", 0, 14, 0x7373, 8, 4, {3, 0, 0, 0, 0}},
    // 14 for the start; the end itself is allowed, and no address lies there.
    {"EC80", 3, 2, 0, 3, 1, {14, 0, 0, 0, 0}},
    {"EC80", 3, 2, 0, 9, 1, {14, 0, 0, 0, 0}},
    {"EC80", UINT64_MAX, 1, 0, UINT64_MAX, 1, {14, 0, 0, 0, 0}},
    {"EC80", 2, 0, 0, 2, 1, {15, 0, 0, 0, 0}},
    {"EC80", 2, 1, 0, 2, 1, {1, 2, 0, 0, 0}},
    // 15 comes before the reading.
    {"EC80", 0, 2, 0, 2, 1, {15, 0, 0, 0, 0}},
    {"EC80", 1, 1, 0, 0, 1, {15, 0, 0, 0, 0}},
    {"0F80", 0, 2, 0, 2, 1, {15, 0, 0, 0, 0}},
    {"0F80", 0, 2, 0, 1, 1, {2, 0, 0, 0, 0}},
    {"EC80", 0, 0, 0, 0, 1, {15, 0, 0, 0, 0}},
    {"EC80", 0, 100, 0, 50, 1, {1, 2, 0, 0, 0}},
    {"EC80", 1, UINT64_MAX, 0, UINT64_MAX, 1, {1, 1, 0, 0, 0}},
    {"EC80", 0, 2, 0, UINT64_MAX, 1, {15, 0, 0, 0, 0}},
    // Document 01's P9 to P12, and the order of 13 and the body.
    {"B580", 0, 2, 0, 0, 1, {5, 0, 0, 0, 0}},
    {"446187", 0, 3, 0, 0, 1, {6, 0, 0, 0, 0}},
    {"45A383EDA080", 0, 6, 0, 0, 1, {7, 0, 0, 0, 0}},
    {"838900", 0, 3, 0, 0, 1, {4, 0, 0, 0, 0}},
    {"67C88445A3824142", 0, 7, 0, 0, 2, {3, 3, 0, 0, 0}},
    {"67C88445A38241", 0, 7, 0, 0, 2, {1, 3, 0, 0, 0}},
    {"1654AE6B82E080", 0, 7, SEGMENT, 6, 2, {0, 0, 1, 0, 2}},
    {"EC81", 0, 2, 0, 0, 0, {13, 0, 0, 0, 0}},
    {"AEA0AE9EAE9CAE9AAE98AE96AE94AE92AE90AE8EAE8CAE8AAE88AE86AE84AE82AE80",
     0, 34, 0, 0, 17, {12, 32, 0, 0, 0}},
    // The address of each: the header that was being read, not its payload or its master.
    {"AE81", 0, 2, 0, 0, 1, {1, 2, 0, 0, 0}},
    {"45A381FF", 0, 4, 0, 0, 1, {7, 0, 0, 0, 0}},
    {"EC80", 0, 2, 0, 0, 0, {13, 0, 0, 0, 0}},
    {"EC80EC80", 0, 4, 0, 0, 1, {13, 2, 0, 0, 0}},
    {"45B9A0B69EB69CB69AB698B696B694B692B690B68EB68CB68AB688B686B684B682B680",
     0, 35, UZ_CHAPTERS, 0, 17, {12, 33, 0, 0, 0}},
    {"67C886EC8045A3824142", 0, 9, 0, 0, 3, {3, 5, 0, 0, 0}},
    // One behind the payload: AE passes its master's end, and what it holds is read first.
    {"67C881AE830F8000", 0, 4, 0, 0, 3, {2, 5, 0, 0, 0}},
};
// clang-format on

static void test_places(void) {
    for (size_t i = 0; i < sizeof place_cases / sizeof *place_cases; i++) {
        const place_case *asked = &place_cases[i];
        about = asked->bytes;
        for (unsigned front = 0; front < 2; front++) {
            recording from = hex(asked->bytes, front != 0);
            lent to = lend(small_tables, asked->rows * UZ_WIDTH, front != 0);
            uz_place said =
                whose_byte(from, asked->start, asked->size, asked->parent, asked->address, to);
            check(same_place(said, asked->due), "the worked reply");
        }
    }
    about = "P12";
    lent to = lend(small_tables, 2 * UZ_WIDTH, false);
    whose_byte(hex("1654AE6B82E080", false), 0, 7, SEGMENT, 6, to);
    check(cell(to, 1, UZ_ID) == 0xE0 && cell(to, 1, UZ_KIND) == UZ_BINARY, "E0 is binary there");
}

// ---- The owner without a table ----

typedef struct {
    const char *bytes;
    pointed asked;
    uz_owned due;
    uint64_t chain[3]; // its first three numbers
} owner_case;

// clang-format off
static const owner_case owner_cases[] = {
    // A setting of the bench below a tag, and a text of it; its master's payload alone.
    {"67C88C45A3847261696C4487823556", {0, 15, 0x7373, 8}, {0, 0, 3, 1, 1}, {0, 3, 0}},
    {"67C88C45A3847261696C4487823556", {0, 15, 0x7373, 0}, {0, 0, 0, 0, 0}, {0, 0, 0}},
    {"67C88C45A3847261696C4487823556", {0, 15, 0x7373, 12}, {0, 0, 10, 0, 1}, {0, 10, 0}},
    {"67C88C45A3847261696C4487823556", {3, 12, 0x67C8, 14}, {0, 0, 10, 1, 0}, {10, 0, 0}},
    // Document 02's 8 bytes: a master in a master, a leaf in that and one behind both.
    {"A084A082EC80EC80", {0, 8, 0, 5}, {0, 0, 4, 0, 2}, {0, 2, 4}},
    {"A084A082EC80EC80", {0, 8, 0, 3}, {0, 0, 2, 0, 1}, {0, 2, 0}},
    {"A084A082EC80EC80", {0, 8, 0, 6}, {0, 0, 6, 0, 0}, {6, 0, 0}},
    {"A084A082EC80EC80", {2, 4, 0xA0, 5}, {0, 0, 4, 0, 1}, {2, 4, 0}},
    // An element that is too large is refused at once, though its header has the address.
    {"EC8200", {0, 2, 0, 0}, {3, 0, 0, 0, 0}, {0, 0, 0}},
    {"A0830F80EC", {0, 4, 0, 2}, {3, 0, 0, 0, 0}, {0, 0, 0}},
    {"A084EC8141EC8041", {0, 8, 0, 5}, {3, 5, 0, 0, 0}, {0, 0, 0}},
    {"A085EC80EC8241", {0, 7, 0, 2}, {0, 0, 2, 0, 1}, {0, 2, 0}},
    {"A085EC80EC8241", {0, 7, 0, 4}, {3, 4, 0, 0, 0}, {0, 0, 0}},
    {"EC01FFFFFFFFFFFFFF", {0, 9, 0, 0}, {3, 0, 0, 0, 0}, {0, 0, 0}},
    // A header that reads past its master's end.
    {"A081EC8041", {0, 5, 0, 2}, {3, 2, 0, 0, 0}, {0, 0, 0}},
    // No body is looked at: a text that is none, numbers of other lengths, a leaf that is cut off.
    {"45A381FF", {0, 4, 0, 3}, {0, 0, 0, 1, 0}, {0, 0, 0}},
    {"838900", {0, 11, 0, 9}, {0, 0, 0, 1, 0}, {0, 0, 0}},
    {"B581004461810042", {0, 8, 0, 3}, {0, 0, 3, 0, 0}, {3, 0, 0}},
    {"EC8400", {0, 6, 0, 5}, {0, 0, 0, 1, 0}, {0, 0, 0}},
    {"A0FFEC84", {0, 129, 0, 7}, {0, 0, 2, 1, 1}, {0, 2, 0}},
    {"18538067FFEC01FFFFFFFFFFFFF5", {0, UINT64_MAX, 0, 0}, {0, 0, 0, 0, 0}, {0, 0, 0}},
    {"18538067FFEC01FFFFFFFFFFFFF5", {0, UINT64_MAX, 0, 6}, {3, 5, 0, 0, 0}, {0, 0, 0}},
    // What stands behind the address is not read.
    {"EC8000", {0, 3, 0, 0}, {0, 0, 0, 0, 0}, {0, 0, 0}},
    {"EC8000", {0, 3, 0, 2}, {1, 2, 0, 0, 0}, {0, 0, 0}},
    {"EC800F80", {0, 4, 0, 1}, {0, 0, 0, 0, 0}, {0, 0, 0}},
    {"EC800F80", {0, 4, 0, 2}, {2, 2, 0, 0, 0}, {0, 0, 0}},
    {"EC80EC0001", {0, 5, 0, 3}, {3, 2, 0, 0, 0}, {0, 0, 0}},
    // What a sibling holds is not read: a long id, and a child that would be too large.
    {"A0820F80EC80", {0, 6, 0, 4}, {0, 0, 4, 0, 0}, {4, 0, 0}},
    {"A082EC82EC80", {0, 6, 0, 5}, {0, 0, 4, 0, 0}, {4, 0, 0}},
    // A sibling that is passed over ends behind the recording: the next header is not there.
    {"EC84", {0, 20, 0, 7}, {1, 6, 0, 0, 0}, {0, 0, 0}},
    {"EC0180000000000000EC80", {0, UINT64_MAX, 0, UINT64_C(36028797018963977)},
     {1, UINT64_C(36028797018963977), 0, 0, 0}, {0, 0, 0}},
    // Masters by the parent: E0 below Tracks is none, and the address is in its payload.
    {"1654AE6B84E082B080", {0, 9, SEGMENT, 7}, {0, 0, 5, 1, 1}, {0, 5, 0}},
    {"1654AE6B84E082B080", {5, 4, UZ_UNDER_TRACKS, 7}, {0, 0, 7, 0, 1}, {5, 7, 0}},
    {"AE82B080", {0, 4, UZ_TRACKS, 2}, {0, 0, 2, 0, 1}, {0, 2, 0}},
    {"AE82B080", {0, 4, UZ_TAGS, 2}, {0, 0, 0, 1, 0}, {0, 0, 0}},
    {"692482B080", {0, 5, 0x1549A966, 3}, {0, 0, 3, 0, 1}, {0, 3, 0}},
    {"45B982B080", {0, 5, UZ_CHAPTERS, 3}, {0, 0, 3, 0, 1}, {0, 3, 0}},
    {"61A782B080", {0, 5, UZ_ATTACHMENTS, 3}, {0, 0, 3, 0, 1}, {0, 3, 0}},
    {"737382B080", {0, 5, UZ_TAGS, 3}, {0, 0, 3, 0, 1}, {0, 3, 0}},
    // 12 comes behind the header's own faults, and before what is left.
    {"AEA0AE9EAE9CAE9AAE98AE96AE94AE92AE90AE8EAE8CAE8AAE88AE86AE84AE82EC80",
     {0, 34, 0, 33}, {12, 32, 0, 0, 0}, {0, 0, 0}},
    {"AEA0AE9EAE9CAE9AAE98AE96AE94AE92AE90AE8EAE8CAE8AAE88AE86AE84AE82EC81",
     {0, 34, 0, 32}, {12, 32, 0, 0, 0}, {0, 0, 0}},
    {"AEA0AE9EAE9CAE9AAE98AE96AE94AE92AE90AE8EAE8CAE8AAE88AE86AE84AE820F80",
     {0, 34, 0, 33}, {2, 32, 0, 0, 0}, {0, 0, 0}},
    {"AE9EAE9CAE9AAE98AE96AE94AE92AE90AE8EAE8CAE8AAE88AE86AE84AE82EC80",
     {0, 32, 0, 31}, {0, 0, 30, 0, 15}, {0, 2, 4}},
    // 14 for the start, then 15, before anything in the recording.
    {"EC80", {3, 2, 0, 3}, {14, 0, 0, 0, 0}, {0, 0, 0}},
    {"EC80", {UINT64_MAX, 1, 0, UINT64_MAX}, {14, 0, 0, 0, 0}, {0, 0, 0}},
    {"EC80", {2, 0, 0, 2}, {15, 0, 0, 0, 0}, {0, 0, 0}},
    {"EC80", {2, 1, 0, 2}, {1, 2, 0, 0, 0}, {0, 0, 0}},
    {"0F80", {0, 2, 0, 2}, {15, 0, 0, 0, 0}, {0, 0, 0}},
    {"0F80", {1, 1, 0, 0}, {15, 0, 0, 0, 0}, {0, 0, 0}},
    {"0F80", {0, 2, 0, UINT64_MAX}, {15, 0, 0, 0, 0}, {0, 0, 0}},
    {"0F80", {0, 2, 0, 1}, {2, 0, 0, 0, 0}, {0, 0, 0}},
    {"", {0, 0, 0, 0}, {15, 0, 0, 0, 0}, {0, 0, 0}},
    {"", {0, UINT64_MAX, 0, 0}, {1, 0, 0, 0, 0}, {0, 0, 0}},
    // start + size beyond 2^64, and the last address that there is.
    {"00EC80", {1, UINT64_MAX, 0, 2}, {0, 0, 1, 0, 0}, {1, 0, 0}},
    {"00EC80", {1, UINT64_MAX, 0, UINT64_MAX}, {1, 3, 0, 0, 0}, {0, 0, 0}},
};
// clang-format on

static void test_owners(void) {
    for (size_t i = 0; i < sizeof owner_cases / sizeof *owner_cases; i++) {
        const owner_case *now = &owner_cases[i];
        about = now->bytes;
        for (unsigned front = 0; front < 2; front++) {
            recording from = hex(now->bytes, front != 0);
            lent chain = lend(chains, UZ_MOST_LINKS, front != 0);
            check(same_owned(owner(from, now->asked, chain), now->due), "the worked owner");
            check(memcmp(chain.table, now->chain, sizeof now->chain) == 0, "the worked chain");
        }
    }
}

// Masters in each other, to the deepest: chains of every length that is taken, and longer ones.
static void test_links(void) {
    about = "a chain of masters";
    static const size_t more[] = {UZ_MOST_LINKS + 1, UZ_MOST_LINKS + 2, UZ_MOST_NUMBERS};
    written *to = clean();
    for (unsigned left = UZ_MOST_DEPTH; left > 0; left--) {
        put_byte(to, 0xAE);
        put_byte(to, 0x80 | 2 * left);
    }
    put_hex(to, "EC80");
    recording from = placed(to->bytes, to->length, false);
    for (uint64_t address = 0; address < from.length; address++) {
        pointed asked = {0, from.length, 0, address};
        uz_owned due = {0, 0, address / 2 * 2, 0, address / 2};
        for (size_t links = 0; links <= UZ_MOST_LINKS; links++) {
            lent chain = lend(chains, links, links % 2 != 0);
            check(same_owned(owner(from, asked, chain), due), "an owner in masters");
            for (size_t i = 0; i < links; i++)
                check(chain.table[i] == (i <= due.depth ? 2 * i : 0), "a link is a header");
        }
        for (size_t i = 0; i < sizeof more / sizeof *more; i++)
            owner(from, asked, lend(large_tables, more[i], i % 2 != 0));
    }
    // 14 for the chain comes before 15.
    pointed outside = {0, from.length, 0, from.length};
    owner(from, outside, lend(chains, UZ_MOST_LINKS + 1, false));
}

// Nothing but headers is looked at: the recording goes on behind the last of them, on a page that
// is inaccessible.
static void test_unread(void) {
    about = "bodies that are not there";
    static const struct {
        const char *headers;
        uz_owned due;
    } asked[] = {
        {"EC08FFFFFFF0", {0, 0, 0, 1, 0}},
        {"45A308FFFFFFF0", {0, 0, 0, 1, 0}},
        {"838F", {0, 0, 0, 1, 0}},
        {"A01FFFFFF0EC1FFFFF00", {0, 0, 5, 1, 1}},
        {"44611FFFFFF0", {0, 0, 0, 1, 0}},
        {"18538067FFEC8041A290", {0, 0, 7, 1, 1}},
        {"1F43B6751FFFFFFFA38F", {0, 0, 8, 1, 1}},
    };
    for (size_t i = 0; i < sizeof asked / sizeof *asked; i++) {
        recording from = hex(asked[i].headers, false);
        uint64_t behind = from.length;
        from.length = (size_t)UZ_MOST_BYTES;
        for (uint64_t k = 0; k < 3; k++) {
            pointed byte = {0, UINT64_MAX, 0, behind + k * 5};
            check(same_owned(any_owner(from, byte), asked[i].due), "a body is not looked at");
        }
    }
}

// What is passed over is not looked at either: a page between two headers is inaccessible, and all
// of it is the first one's body.
static void test_passed_over(void) {
    about = "a body between two headers";
    static const uint8_t passed[][4] = {{0xEC, 0x21, 0, 0}, {0xA0, 0x21, 0, 0}, {0x85, 0x21, 0, 0}};
    static const uint8_t next[] = {0xEC, 0x80};
    arena all = make_arena(3 * (size_t)PAGE);
    for (size_t i = 0; i < sizeof passed / sizeof *passed; i++) {
        allow(all, PROT_READ | PROT_WRITE);
        recording from = {all.first + PAGE - sizeof *passed, sizeof *passed + PAGE + sizeof next};
        memcpy(all.first + PAGE - sizeof *passed, passed[i], sizeof *passed);
        memcpy(all.first + 2 * (size_t)PAGE, next, sizeof next);
        allow(all, PROT_NONE);
        arena front = {all.first, PAGE}, back = {all.first + 2 * (size_t)PAGE, PAGE};
        allow(front, PROT_READ);
        allow(back, PROT_READ);
        for (uint64_t k = 0; k < sizeof next; k++) {
            pointed asked = {0, from.length, 0, sizeof *passed + PAGE + k};
            uz_owned due = {0, 0, sizeof *passed + PAGE, 0, 0};
            check(same_owned(any_owner(from, asked), due), "the element behind it");
        }
    }
    munmap(all.first - PAGE, all.size + 2 * (size_t)PAGE);
}

// Which ids are masters: each of the list, and its neighbours, below each parent that has a set of
// its own, and below others. The body is an element of no bytes, or two bytes.
static void test_masters(void) {
    about = "the masters";
    static const uint32_t above[] = {0,           SEGMENT, 0x1549A966, UZ_TRACKS, UZ_ATTACHMENTS,
                                     UZ_CHAPTERS, UZ_TAGS, 0xAE,       UINT32_MAX};
    for (size_t i = 0; i < sizeof listed_masters / sizeof *listed_masters; i++) {
        for (uint32_t id = listed_masters[i] - 1; id <= listed_masters[i] + 1; id++) {
            written *to = clean();
            put_id(to, id);
            put_hex(to, "82EC80");
            recording from = placed(to->bytes, to->length, false);
            pointed asked = {0, from.length, 0, from.length - 1};
            for (size_t k = 0; k < sizeof above / sizeof *above; k++) {
                asked.parent = above[k];
                any_owner(from, asked);
                whose_byte(from, 0, from.length, above[k], asked.address,
                           lend(small_tables, 2 * UZ_WIDTH, false));
            }
        }
    }
}

// Every byte of a recording by the order of its elements, from the start of the file on.
static void test_bytes(recording from) {
    for (uint64_t address = 0; address < from.length; address++) {
        pointed asked = {0, UINT64_MAX, 0, address};
        any_owner(from, asked);
    }
}

// Every byte of a part that is found, by both address questions.
static void test_part_bytes(recording from, size_t i) {
    size_t numbers = small_tables.size / sizeof(uint64_t);
    uz_part found = find_part(from, parts[i], lend(small_tables, numbers, false));
    for (uint64_t k = 0; k < found.size; k++) {
        lent to = lend(small_tables, numbers, k % 2 != 0);
        uz_place said = whose_byte(from, found.at, found.size, parents[i], found.at + k, to);
        check(said.refused == UZ_ACCEPTED, "a byte of a file's part");
    }
}

// Every byte of every part, and of every master inside it.
static void test_sample(void) {
    about = "the sample";
    static const uint64_t rows[] = {9, 3, 99, 12};
    written *made = clean();
    put_sample(made);
    recording from = placed(made->bytes, made->length, false);
    static uint64_t kept[UZ_MOST_NUMBERS];
    test_bytes(from);
    for (size_t i = 0; i < 4; i++) {
        size_t numbers = (size_t)rows[i] * UZ_WIDTH;
        lent to = lend(small_tables, numbers, false);
        uz_part found = find_part(from, parts[i], to);
        check(found.found == 1 && found.rows == rows[i] && found.heads == 2, "the part is found");
        memcpy(kept, to.table, numbers * sizeof *kept);
        for (uint64_t k = 0; k < found.size; k++) {
            to = lend(small_tables, numbers, k % 2 != 0);
            uz_place said = whose_byte(from, found.at, found.size, parents[i], found.at + k, to);
            check(said.refused == UZ_ACCEPTED && said.rows == rows[i], "a byte of the part");
            check(memcmp(kept, to.table, numbers * sizeof *kept) == 0, "the rows of the search");
        }
        static const int64_t outside[] = {-1, 0};
        for (size_t k = 0; k < 2; k++) {
            uint64_t address = found.at + (uint64_t)outside[k] + (k == 1 ? found.size : 0);
            to = lend(small_tables, numbers, false);
            uz_place said = whose_byte(from, found.at, found.size, parents[i], address, to);
            check(said.refused == UZ_OUTSIDE, "a byte beside the part");
        }
        for (uint64_t row = 0; row < found.rows; row++) {
            const uint64_t *master = kept + row * UZ_WIDTH;
            uint64_t at = master[UZ_ADDRESS] + master[UZ_HEADER];
            if (master[UZ_KIND] != UZ_MASTER || master[UZ_PAYLOAD] == 0)
                continue;
            to = lend(small_tables, numbers, false);
            uz_place said =
                whose_byte(from, at, master[UZ_PAYLOAD], (uint32_t)master[UZ_ID], at, to);
            check(said.refused == UZ_ACCEPTED && said.row == 0, "the payload of a master");
        }
    }
}

// ---- The longest recording ----

// One byte more than the longest recording is refused before any byte is looked at.
static void test_too_long(arena in) {
    about = "a recording that is too long";
    allow(in, PROT_NONE);
    size_t length = (size_t)UZ_MOST_BYTES;
    static const size_t long_by[] = {1, 2, (size_t)1 << 32, SIZE_MAX / 2 - (((size_t)1 << 32) - 1)};
    for (size_t i = 0; i < sizeof long_by / sizeof *long_by; i++) {
        recording none = {in.first, length + long_by[i]};
        lent table = lend(small_tables, UZ_WIDTH, false);
        check(find_part(none, UZ_TAGS, table).refused == UZ_BAD_ARGUMENT, "part");
        static const size_t rows[FIVE] = {UZ_WIDTH, 0, 0, UZ_WIDTH, 0};
        lent tables[FIVE];
        lend_five(tables, small_five, rows, false);
        check(open_all(none, tables).refused == UZ_BAD_ARGUMENT, "open");
        table = lend(small_tables, UZ_WIDTH, false);
        check(whose_byte(none, 0, 1, 0, 0, table).refused == UZ_BAD_ARGUMENT, "whose");
        pointed first = {0, 1, 0, 0};
        check(any_owner(none, first).refused == UZ_BAD_ARGUMENT, "owner");
        table = lend(small_tables, UZ_WIDTH, false);
        memset(table.table, 0, UZ_WIDTH * sizeof(uint64_t));
        uz_range range = uz_row_payload(none.bytes, none.length, table.table, table.numbers, 0);
        check(is_range(range, UZ_BAD_ARGUMENT, 0, 0), "payload");
        table.table[UZ_KIND] = UZ_UTF8;
        check(is_range(shown_text(none, table, 0), UZ_BAD_ARGUMENT, 0, 0), "text");
    }
}

// Only the first and the last page can be read: what is passed over is not touched.
static void test_longest(void) {
    about = "the longest recording";
    size_t length = (size_t)UZ_MOST_BYTES;
    arena all = make_arena(length + 1);
    allow(all, PROT_NONE);
    arena front = {all.first, PAGE};
    arena back = {all.first + all.size - PAGE, PAGE};
    allow(front, PROT_READ | PROT_WRITE);
    allow(back, PROT_READ | PROT_WRITE);
    // The recording ends at the inaccessible page, so it begins one byte behind the front.
    uint8_t *bytes = all.first + all.size - length;
    written *to = clean();
    put_id(to, SEGMENT);
    put_number(to, UINT64_C(0x0100000000000000) | (length - 12), 8);
    put_id(to, VOID);
    put_number(to, UINT64_C(0x0100000000000000) | (length - 12 - 9 - 12), 8);
    memcpy(bytes, to->bytes, to->length);
    to = clean();
    put_hex(to, "1254C36787737384EC824142");
    memcpy(bytes + length - to->length, to->bytes, to->length);
    allow(front, PROT_READ);
    allow(back, PROT_READ);

    recording from = {bytes, length};
    lent table = lend(small_tables, 2 * UZ_WIDTH, false);
    uz_part due = {0, 0, 0, 1, length - 7, 7, 2, 0};
    about = "the longest recording: Tags at its end";
    static const size_t two_rows[FIVE] = {0, 0, 0, 0, 2 * UZ_WIDTH};
    lent tables[FIVE];
    lend_five(tables, small_five, two_rows, false);
    uz_opened opened = TAGS_AT(0, length - 7, 7, 2);
    check(is_opened(call_open(from, tables, mode), opened), "all parts at once");
    uz_part said = uz_find_part(from.bytes, from.length, UZ_TAGS, table.table, table.numbers, mode);
    check(is_part(said, due), "the reply");
    check(same_table(table, tables[FIVE - 1]), "and the same rows");
    check(are_rows(from, said.at, said.size, said.rows, table), "the rows");
    check(lead_past(table, said.rows), "each row leads past what it holds");
    uz_range range = uz_row_payload(from.bytes, from.length, table.table, table.numbers, 1);
    check(is_range(range, UZ_ACCEPTED, length - 2, 2), "the last payload");
    check(shown_text(from, table, 1).refused == UZ_BAD_ARGUMENT, "bytes are no text");
    table.table[UZ_WIDTH + UZ_KIND] = UZ_UTF8;
    check(is_range(shown_text(from, table, 1), UZ_ACCEPTED, length - 2, 2),
          "the last bytes as a text");
    table = lend(small_tables, 2 * UZ_WIDTH, false);
    uz_place due_place = {0, 0, 1, 1, 2};
    check(same_place(whose_byte(from, length - 7, 7, UZ_UNDER_TAGS, length - 1, table), due_place),
          "the last byte");
    // The same byte from the start of the file on, and one that nobody may look at.
    pointed last = {0, UINT64_MAX, 0, length - 1}, passed = {0, length, SEGMENT, length / 2};
    uz_owned due_last = {0, 0, length - 4, 1, 3}, due_passed = {0, 0, 12, 1, 1};
    check(same_owned(any_owner(from, last), due_last), "the last byte by the file");
    check(same_owned(any_owner(from, passed), due_passed), "a byte that is passed over");

    test_too_long(all);
    munmap(all.first - PAGE, all.size + 2 * (size_t)PAGE);
}

// ---- Damage ----

// Changes up to four bytes, and cuts one copy in four short.
static size_t damage(uint8_t *bytes, size_t length) {
    static const uint8_t edges[] = {0x00, 0x01, 0x0F, 0x10, 0x7F, 0x80, 0x81, 0x82, 0xEC, 0xFF};
    for (uint64_t n = 1 + any(4); n > 0; n--) {
        uint8_t *byte = bytes + any(length);
        switch (any(3)) {
        case 0:
            *byte = (uint8_t)any(256);
            break;
        case 1:
            *byte = (uint8_t)(*byte ^ 1u << any(8));
            break;
        default:
            *byte = edges[any(sizeof edges)];
        }
    }
    return any(4) == 0 ? (size_t)any(length + 1) : length;
}

static lent lend_any(size_t rows) {
    bool front = any(2) == 0;
    return lend(small_tables, rows * UZ_WIDTH, front);
}

// All parts at once, mostly with rows for all of them.
static void ask_open(recording from) {
    size_t room = small_five[0].size / sizeof(uint64_t), numbers[FIVE];
    bool front = any(2) == 0;
    lent to[FIVE];
    for (size_t i = 0; i < FIVE; i++)
        numbers[i] = any(12) == 0 ? (size_t)any(30) * UZ_WIDTH : room;
    lend_five(to, small_five, numbers, front);
    open_all(from, to);
}

// Some bytes by the order of the file: any, and one in a payload of any master.
static void ask_owners(recording from) {
    for (unsigned n = 0; n < 8; n++) {
        pointed asked = {0, UINT64_MAX, 0, any(from.length + 2)};
        any_owner(from, asked);
        asked.start = any(from.length + 2);
        asked.size = any(3) == 0 ? UINT64_MAX - any(9) : any(from.length + 2);
        asked.parent = any(2) == 0 ? 0 : parts[any(4)];
        asked.address = asked.start + any(any(4) == 0 ? UINT32_MAX : 40);
        any_owner(from, asked);
    }
}

static void ask_damaged(recording from, uint64_t *accepted) {
    size_t room = small_tables.size / sizeof(uint64_t) / UZ_WIDTH;
    for (size_t i = 0; i < 4; i++) {
        size_t rows = any(3) == 0 ? (size_t)any(40) : room;
        lent to = lend_any(rows);
        uz_part found = find_part(from, parts[i], to);
        *accepted += found.refused == UZ_ACCEPTED;
        if (found.size == 0)
            continue;
        // The address question gives the same table.
        static uint64_t kept[UZ_MOST_NUMBERS];
        memcpy(kept, to.table, to.numbers * sizeof *kept);
        for (unsigned k = 0; k < 3; k++) {
            uint64_t address = found.at + any(found.size);
            to = lend_any(rows);
            uz_place said = whose_byte(from, found.at, found.size, parents[i], address, to);
            check(said.refused == UZ_ACCEPTED, "a byte of an accepted part has an owner");
            check(memcmp(kept, to.table, to.numbers * sizeof *kept) == 0,
                  "one table for a payload");
        }
    }
    // Any payload at all, and addresses in its first half.
    static const uint32_t above[] = {0, SEGMENT, UZ_TRACKS, UZ_CHAPTERS, 0xB6, 0x7373};
    uint64_t start = any(from.length + 2);
    uint64_t size = any(from.length + 2);
    if (any(4) == 0)
        size = UINT64_MAX - any(9);
    uint32_t parent = above[any(sizeof above / sizeof *above)];
    uint64_t address = start + any(size / 2 + 1);
    whose_byte(from, start, size, parent, address, lend_any((size_t)any(60)));
    ask_owners(from);
    ask_open(from);
}

static void test_damage(const char *name, const uint8_t *bytes, size_t length, unsigned copies) {
    about = name;
    uint8_t *copy = malloc(length + 1);
    if (copy == NULL)
        give_up("there is no memory for a copy");
    uint64_t accepted = 0;
    for (unsigned n = 0; n < copies; n++) {
        memcpy(copy, bytes, length);
        size_t left = n == 0 ? length : damage(copy, length);
        recording from = placed(copy, left, n % 2 != 0);
        ask_damaged(from, &accepted);
        if (left > 0)
            check(memcmp(copy, from.bytes, left) == 0, "the recording is not written");
    }
    free(copy);
    printf("faces: %s: %u copies, %" PRIu64 " of %u searches accepted\n", name, copies, accepted,
           4 * copies);
}

static void test_file(const char *name) {
    static uint8_t bytes[MOST_FILE];
    FILE *file = fopen(name, "rb");
    size_t length = file != NULL ? fread(bytes, 1, sizeof bytes, file) : 0;
    if (file == NULL || ferror(file) || fgetc(file) != EOF)
        give_up("a file can't be read, or is longer than 1 MiB");
    fclose(file);
    const char *slash = strrchr(name, '/');
    about = slash != NULL ? slash + 1 : name;
    if (length == 0)
        return;
    recording from = placed(bytes, length, false);
    test_bytes(from);
    for (size_t i = 0; i < 4; i++)
        test_part_bytes(from, i);
    test_damage(about, bytes, length, DAMAGED_FILE);
}

// ---- Modes ----

typedef struct {
    const char *bytes;
    uint32_t part;
    size_t rows; // of the table that is lent
    uz_part plain, live;
} mode_case;

// clang-format off
static const mode_case mode_cases[] = {
    // A header that is cut off in a Segment of unknown size; what ends it; what may not stand before it.
    {"18538067FFEC", UZ_TAGS, 1, {1, 0, 5, 0, 0, 0, 0, 0}, {1, 0, 5, 0, 0, 0, 0, 0}},
    {"18538067FF1A45DFA3", UZ_TAGS, 1, {1, 0, 5, 0, 0, 0, 0, 0}, {1, 0, 5, 0, 0, 0, 0, 0}},
    {"18538067FF", UZ_TAGS, 1, {1, 0, 5, 0, 0, 0, 0, 0}, {0, 0, 0, 0, 0, 0, 0, 0}},
    {"18538067FF1A45DFA3FF", UZ_TAGS, 1, {3, 0, 5, 0, 0, 0, 0, 0}, {0, 0, 0, 0, 0, 0, 0, 0}},
    {"18538067FF1853806780", UZ_TAGS, 1, {1, 0, 10, 0, 0, 0, 0, 0}, {0, 0, 0, 0, 0, 0, 0, 0}},
    {"1A45DFA3FF1853806780", UZ_TAGS, 1, {1, 0, 132, 0, 0, 0, 0, 0}, {17, 0, 0, 0, 0, 0, 0, 0}},
    // Tags behind Clusters of unknown size; sizes of each width; all ones in another width is a number.
    {"18538067FF1F43B675FFA381001254C36782EC80", UZ_TAGS, 1,
     {3, 0, 5, 0, 0, 0, 0, 0}, {0, 0, 0, 1, 18, 2, 1, 0}},
    {"1853806701FFFFFFFFFFFFFF1F43B6757FFFA381001F43B6753FFFFFE780EC801254C36780", UZ_TAGS, 0,
     {1, 0, 16401, 0, 0, 0, 0, 0}, {0, 0, 0, 1, 37, 0, 0, 0}},
    {"18538067FFEC407F", UZ_TAGS, 0, {3, 0, 5, 0, 0, 0, 0, 0}, {0, 0, 0, 0, 0, 0, 0, 0}},
    {"18538067FFECFF", UZ_TAGS, 0, {3, 0, 5, 0, 0, 0, 0, 0}, {17, 0, 5, 0, 0, 0, 0, 0}},
    // The end of the Segment before that of the recording; a Segment that goes on; a block past the end.
    {"185380678B1F43B675FFA38400", UZ_TAGS, 0, {3, 0, 5, 0, 0, 0, 0, 0}, {0, 0, 0, 0, 0, 0, 0, 0}},
    {"18538067901F43B675FFA38400", UZ_TAGS, 0, {3, 0, 5, 0, 0, 0, 0, 0}, {1, 0, 13, 0, 0, 0, 0, 0}},
    {"18538067881F43B675FFA38400000000", UZ_TAGS, 0, {3, 0, 5, 0, 0, 0, 0, 0}, {0, 0, 0, 0, 0, 0, 0, 0}},
    {"18538067871F43B675FFA38412345612", UZ_TAGS, 0, {3, 0, 5, 0, 0, 0, 0, 0}, {0, 0, 0, 0, 0, 0, 0, 0}},
    // The same with a Void before the block, which ends no Cluster; and without a Cluster.
    {"185380678A1F43B675FFEC80A38400000000", UZ_TAGS, 0, {3, 0, 5, 0, 0, 0, 0, 0}, {0, 0, 0, 0, 0, 0, 0, 0}},
    {"185380678ABF841234567EEC80A3840000", UZ_TAGS, 0, {3, 0, 13, 0, 0, 0, 0, 0}, {3, 0, 13, 0, 0, 0, 0, 0}},
    // An unknown size in a Cluster; a Cluster and a Segment in a Segment of known size; before the Segment.
    {"18538067FF1F43B675FFA0FF", UZ_TAGS, 0, {3, 0, 5, 0, 0, 0, 0, 0}, {17, 0, 10, 0, 0, 0, 0, 0}},
    {"1F43B675FFA381001853806780", UZ_TAGS, 0, {1, 0, 132, 0, 0, 0, 0, 0}, {0, 0, 0, 0, 0, 0, 0, 0}},
    {"185380678518538067FFEC80", UZ_TAGS, 0, {3, 0, 5, 0, 0, 0, 0, 0}, {0, 0, 0, 0, 0, 0, 0, 0}},
    {"185380678E18538067FF1F43B675FFA38100A0FF", UZ_TAGS, 0, {3, 0, 5, 0, 0, 0, 0, 0}, {17, 0, 18, 0, 0, 0, 0, 0}},
    {"185380679118538067FF1254C367801A45DFA3801254C36780", UZ_TAGS, 0,
     {3, 0, 5, 0, 0, 0, 0, 0}, {0, 0, 0, 1, 25, 0, 0, 0}},
    // A Cluster in a Cluster ends it; a Tags of unknown size behind it is 17.
    {"18538067FF1F43B675FF1F43B675FF1254C367FF", UZ_TAGS, 0, {3, 0, 5, 0, 0, 0, 0, 0}, {17, 0, 15, 0, 0, 0, 0, 0}},
    // Larger than the recording, in a Segment of unknown size: its end is that of the recording.
    {"18538067FFECC0", UZ_TAGS, 0, {1, 0, 71, 0, 0, 0, 0, 0}, {0, 0, 0, 0, 0, 0, 0, 0}},
    // In a part and in a seek head: 17 before 12 and 13, and for a Cluster too.
    {"18538067871254C36782ECFF", UZ_TAGS, 0, {13, 0, 10, 0, 0, 0, 0, 0}, {17, 0, 10, 0, 0, 0, 0, 0}},
    {"185380678A1254C367851F43B675FF", UZ_TAGS, 1, {1, 0, 15, 0, 0, 0, 0, 0}, {17, 0, 10, 0, 0, 0, 0, 0}},
    {"1853806787114D9B7482ECFF", UZ_TAGS, 0, {1, 0, 10, 0, 0, 0, 0, 0}, {17, 0, 10, 0, 0, 0, 0, 0}},
    {"18538067A7114D9B74A2AEA0AE9EAE9CAE9AAE98AE96AE94AE92AE90AE8EAE8CAE8AAE88AE86AE84AE82AEFF",
     UZ_TAGS, 0, {12, 0, 42, 0, 0, 0, 0, 0}, {17, 0, 42, 0, 0, 0, 0, 0}},
    // At the address of an entry: 17 before 9, but a Cluster or a Segment there is 9.
    {"1853806797114D9B748E4DBB8B53AB841654AE6B53AC8115EC82ECFF", UZ_TRACKS, 0,
     {9, 0, 26, 0, 0, 0, 0, 0}, {17, 0, 26, 0, 0, 0, 0, 0}},
    {"1853806798114D9B748E4DBB8B53AB841654AE6B53AC81131F43B675FF", UZ_TRACKS, 0,
     {9, 0, 24, 0, 0, 0, 0, 0}, {9, 0, 24, 0, 0, 0, 0, 0}},
    {"1853806798114D9B748E4DBB8B53AB841654AE6B53AC811318538067FF", UZ_TRACKS, 0,
     {9, 0, 24, 0, 0, 0, 0, 0}, {9, 0, 24, 0, 0, 0, 0, 0}},
    {"1853806798114D9B748E4DBB8B53AB841654AE6B53AC81131654AE6BFF", UZ_TRACKS, 0,
     {1, 0, 29, 0, 0, 0, 0, 0}, {17, 0, 24, 0, 0, 0, 0, 0}},
};

static const struct {
    const char *bytes;
    pointed asked;
    size_t rows;
    uz_place plain, live;
    uz_owned plain_owner, live_owner;
} mode_places[] = {
    // A Cluster is 17 before 13, and 17 comes before what was left.
    {"1F43B675FF", {0, 5, 0, 0}, 0, {13, 0, 0, 0, 0}, {17, 0, 0, 0, 0}, {3, 0, 0, 0, 0}, {17, 0, 0, 0, 0}},
    {"ECFF", {0, 2, 0, 0}, 1, {1, 0, 0, 0, 0}, {17, 0, 0, 0, 0}, {3, 0, 0, 0, 0}, {17, 0, 0, 0, 0}},
    {"EC80ECFF", {0, 4, 0, 0}, 2, {1, 2, 0, 0, 0}, {17, 2, 0, 0, 0}, {0, 0, 0, 0, 0}, {0, 0, 0, 0, 0}},
    {"EC407F", {0, 3, 0, 0}, 1, {1, 0, 0, 0, 0}, {1, 0, 0, 0, 0}, {3, 0, 0, 0, 0}, {3, 0, 0, 0, 0}},
    // 17 before 12, and 15 before both.
    {"AEA0AE9EAE9CAE9AAE98AE96AE94AE92AE90AE8EAE8CAE8AAE88AE86AE84AE82ECFF", {0, 34, 0, 33}, 17,
     {12, 32, 0, 0, 0}, {17, 32, 0, 0, 0}, {12, 32, 0, 0, 0}, {17, 32, 0, 0, 0}},
    {"ECFF", {0, 2, 0, 2}, 1, {15, 0, 0, 0, 0}, {15, 0, 0, 0, 0}, {15, 0, 0, 0, 0}, {15, 0, 0, 0, 0}},
    // By the order of the file a Segment of unknown size is 17 too.
    {"18538067FFEC80", {0, UINT64_MAX, 0, 5}, 2,
     {1, 7, 0, 0, 0}, {17, 0, 0, 0, 0}, {0, 0, 5, 0, 1}, {17, 0, 0, 0, 0}},
};
// clang-format on

static void test_mode_cases(void) {
    static const uint32_t both[] = {UZ_PLAIN, UZ_LIVE};
    for (unsigned n = 0; n < 4; n++) {
        mode = both[n / 2];
        for (size_t i = 0; i < sizeof mode_cases / sizeof *mode_cases; i++) {
            const mode_case *asked = &mode_cases[i];
            about = asked->bytes;
            recording from = hex(asked->bytes, n % 2 != 0);
            lent to = lend(large_tables, asked->rows * UZ_WIDTH, n % 2 != 0);
            check(is_part(find_part(from, asked->part, to),
                          mode == UZ_LIVE ? asked->live : asked->plain),
                  "the worked reply of a mode");
        }
        for (size_t i = 0; i < sizeof mode_places / sizeof *mode_places; i++) {
            about = mode_places[i].bytes;
            pointed asked = mode_places[i].asked;
            recording from = hex(about, n % 2 != 0);
            lent to = lend(small_tables, mode_places[i].rows * UZ_WIDTH, n % 2 != 0);
            uz_place said =
                whose_byte(from, asked.start, asked.size, asked.parent, asked.address, to);
            check(same_place(said, mode == UZ_LIVE ? mode_places[i].live : mode_places[i].plain),
                  "the worked place of a mode");
            check(same_owned(any_owner(from, asked), mode == UZ_LIVE ? mode_places[i].live_owner
                                                                     : mode_places[i].plain_owner),
                  "the worked owner of a mode");
        }
    }
}

// A number that is no mode is 14 before all else, and leaves zeros.
static void test_other_modes(void) {
    about = "a mode that is none";
    static const uint32_t others[] = {2, 3, 17, 0x100, 0x10000, 0x80000000, 0x80000001, UINT32_MAX};
    written *made = clean();
    put_sample(made);
    recording from = placed(made->bytes, made->length, false);
    for (size_t i = 0; i < sizeof others / sizeof *others; i++) {
        mode = others[i];
        for (size_t k = 0; k < 4; k++)
            check(find_part(from, parts[k], lend(small_tables, 800, k % 2 != 0)).refused ==
                      UZ_BAD_ARGUMENT,
                  "find_part");
        static const size_t some[FIVE] = {8, 9, 0, 800, 8};
        lent to[FIVE];
        lend_five(to, small_five, some, false);
        check(is_opened(open_all(from, to), (uz_opened)REFUSED(UZ_BAD_ARGUMENT, 0, 0)), "open");
        // The second address is outside, which would be 15.
        for (uint64_t address = 0; address < 2; address++) {
            pointed asked = {0, 1, 0, address};
            check(whose_byte(from, 0, 1, 0, address, lend(small_tables, 800, false)).refused ==
                      UZ_BAD_ARGUMENT,
                  "whose_byte");
            check(any_owner(from, asked).refused == UZ_BAD_ARGUMENT, "owner");
        }
    }
    mode = UZ_PLAIN;
}

// A live recording like the bench kit's: sizes of all ones, blocks, a Void among them, tags between
// two Clusters, and chapters behind the last.
static void put_live(written *to) {
    static const char cluster[] = "1F43B67501FFFFFFFFFFFFFF";
    size_t ebml = open_master(to, EBML);
    put_text(to, 0x4282, "matroska");
    close_master(to, ebml);
    put_hex(to, "1853806701FFFFFFFFFFFFFF");
    put_info(to);
    size_t tracks = open_master(to, UZ_TRACKS);
    size_t entry = open_master(to, 0xAE);
    put_unsigned(to, 0xD7, 1, 1);
    close_master(to, entry);
    close_master(to, tracks);
    for (unsigned n = 0; n < 2; n++) {
        put_hex(to, cluster);
        put_unsigned(to, 0xE7, n, 1);
        put_hex(to, "A3868100008000FFEC80A08BA1868200000041429B8105");
        if (n == 0)
            put_tags(to);
    }
    size_t chapters = open_master(to, UZ_CHAPTERS);
    size_t edition = open_master(to, 0x45B9);
    put_chapter(to, "SPL", 0, 0);
    close_master(to, edition);
    close_master(to, chapters);
}

// A live recording, cut at every byte: a part that stands whole before the cut is found in live
// mode, and another is absent or 1 there.
static void test_cuts(void) {
    about = "a live recording, cut";
    written *made = clean();
    put_live(made);
    static uint8_t whole[4096];
    size_t length = made->length;
    if (length > sizeof whole)
        give_up("a live recording is too long for a test");
    memcpy(whole, made->bytes, length);
    mode = UZ_LIVE;
    uz_part due[4];
    for (size_t i = 0; i < 4; i++) {
        due[i] = find_part(placed(whole, length, false), parts[i], lend(small_tables, 800, false));
        check(due[i].found == (parts[i] != UZ_ATTACHMENTS), "what a live recording has is found");
    }
    for (size_t cut = 0; cut < length; cut++) {
        recording from = placed(whole, cut, cut % 2 != 0);
        ask_open(from);
        for (size_t i = 0; i < 4; i++) {
            uz_part said = find_part(from, parts[i], lend(small_tables, 800, cut % 2 != 0));
            bool whole_part = due[i].found == 1 && due[i].at + due[i].size <= cut;
            check(whole_part ? is_part(said, due[i])
                             : said.refused == UZ_PAST_END ||
                                   (said.refused == UZ_ACCEPTED && said.found == 0),
                  "a part before the cut is found, another absent or 1");
        }
    }
    mode = UZ_PLAIN;
}

// Only the first and the last page can be read: in live mode too a block that is passed over is not
// touched.
static void test_live_blocks(void) {
    about = "a block of two gigabytes in a live Cluster";
    size_t length = (size_t)1 << 31;
    arena all = make_arena(length);
    allow(all, PROT_NONE);
    arena front = {all.first, PAGE};
    arena back = {all.first + all.size - PAGE, PAGE};
    allow(front, PROT_READ | PROT_WRITE);
    allow(back, PROT_READ | PROT_WRITE);
    written *to = clean();
    put_hex(to, "18538067FF1F43B675FFA3");
    put_number(to, UINT64_C(0x0100000000000000) | (length - 19 - 7), 8);
    memcpy(all.first, to->bytes, to->length);
    to = clean();
    put_hex(to, "1254C36782EC80");
    memcpy(all.first + length - to->length, to->bytes, to->length);
    allow(front, PROT_READ);
    allow(back, PROT_READ);
    lent table = lend(small_tables, UZ_WIDTH, false);
    uz_part due = {0, 0, 0, 1, length - 2, 2, 1, 0};
    check(
        is_part(uz_find_part(all.first, length, UZ_TAGS, table.table, table.numbers, UZ_LIVE), due),
        "Tags behind it");
    munmap(all.first - PAGE, all.size + 2 * (size_t)PAGE);
}

// What holds in both modes alike.
static void test_both(void) {
    test_example();
    test_after();
    test_parts();
    test_chain(UZ_MOST_HEADS, UZ_ACCEPTED);
    test_chain(UZ_MOST_HEADS + 1, UZ_TOO_MANY_HEADS);
    test_lengths();
    test_tables();
    test_five_lengths();
    test_open_sample();
    test_places();
    test_links();
    test_passed_over();
    test_masters();
    test_sample();
    test_longest();
}

int main(int count, char **words) {
    // What was told stays told if a call ends the program.
    setvbuf(stdout, NULL, _IOLBF, 0);
    recordings = make_arena(MOST_FILE);
    large_tables = make_arena((UZ_MOST_NUMBERS + UZ_WIDTH) * sizeof(uint64_t));
    plain_tables = make_arena((UZ_MOST_NUMBERS + UZ_WIDTH) * sizeof(uint64_t));
    small_tables = make_arena(PAGE);
    for (size_t i = 0; i < FIVE; i++) {
        large_five[i] = make_arena((UZ_MOST_NUMBERS + UZ_WIDTH) * sizeof(uint64_t));
        small_five[i] = make_arena(PAGE);
        plain_five[i] = make_arena((UZ_MOST_NUMBERS + UZ_WIDTH) * sizeof(uint64_t));
    }
    chains = make_arena(PAGE);
    test_payload();
    test_texts();
    test_alone();
    test_owners();
    test_unread();
    test_mode_cases();
    test_openings();
    test_other_modes();
    test_cuts();
    test_live_blocks();
    static written sample, live;
    put_sample(&sample);
    put_live(&live);
    for (mode = UZ_PLAIN; mode <= UZ_LIVE; mode++) {
        test_both();
        test_damage("the sample", sample.bytes, sample.length, DAMAGED);
        test_damage("a live recording", live.bytes, live.length, DAMAGED);
        for (int i = 1; i < count; i++)
            test_file(words[i]);
    }
    printf("faces: %" PRIu64 " checks, %" PRIu64 " wrong\n", checks, wrong);
    return wrong != 0 || fflush(stdout) != 0;
}
