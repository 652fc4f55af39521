// The parts of a large recording, by the C face: parts [--live] FILE prints for each of the four parts one line,
//
//   part ID refused N at A | part ID absent heads H rows 0 | part ID at A size S heads H rows N / row / row ..
//
// with each row's numbers (id in hexadecimal digits, the rest decimal) as `ask` tells them (docs/ASK.md), and
// behind them where uz_row_payload says that the row's payload is and uz_shown_text that its shown text is, each as
// ADDRESS+LENGTH or 'refused N'.
// parts [--live] --open FILE prints what uz_open says, in one line, as `ask` answers `open` with the largest tables.
// parts [--live] --cuts FILE prints for each length from 0 to the file's, of its first bytes alone, 'cut LENGTH', the
// four lines and that of uz_open, all without rows; it has tables of 1,024 rows then.
// parts [--live] FILE ID ADDRESS.. prints for each address of that part what uz_whose_byte says: 'whose ADDRESS row R
// header', 'whose ADDRESS row R payload' or 'whose ADDRESS refused N at A'.
// Status 0: answered. Status 1: the file can't be read. Status 2: wrong arguments.
#include "uzrafmed.h"

#include <inttypes.h>
#include <stdbool.h>
#include <stdio.h>
#include <stdlib.h>
#include <string.h>

typedef struct {
    uint32_t id;
    uint32_t parent;
} part;

static const part parts[] = {
    {UZ_TRACKS, UZ_UNDER_TRACKS},
    {UZ_ATTACHMENTS, UZ_UNDER_ATTACHMENTS},
    {UZ_CHAPTERS, UZ_UNDER_CHAPTERS},
    {UZ_TAGS, UZ_UNDER_TAGS},
};
#define PARTS (sizeof parts / sizeof *parts)

static uint64_t table[UZ_MOST_NUMBERS];
// The tables of uz_open: Info, and the four parts in their order.
static uint64_t tables[1 + PARTS][UZ_MOST_NUMBERS];
static uint8_t *recording;
static size_t length;
static uint32_t mode = UZ_PLAIN;
static bool cutting;
static bool opening;

static void tell_cells(const uint64_t *of, uint64_t row) {
    printf(" / %" PRIX64, of[row * UZ_WIDTH + UZ_ID]);
    for (unsigned column = UZ_PARENT; column < UZ_WIDTH; column++)
        printf(" %" PRIu64, of[row * UZ_WIDTH + column]);
}

static void tell_range(uz_range range) {
    if (range.refused != UZ_ACCEPTED)
        printf(" refused %" PRIu64, range.refused);
    else
        printf(" %" PRIu64 "+%" PRIu64, range.at, range.length);
}

static void tell_rows(uint64_t rows) {
    for (uint64_t row = 0; row < rows; row++) {
        tell_cells(table, row);
        tell_range(uz_row_payload(recording, length, table, UZ_MOST_NUMBERS, row));
        tell_range(uz_shown_text(recording, length, table, UZ_MOST_NUMBERS, row));
    }
}

static void tell_part(const part *of) {
    uz_part reply = uz_find_part(recording, length, of->id, table, UZ_MOST_NUMBERS, mode);
    printf("part %" PRIX32, of->id);
    if (reply.refused != UZ_ACCEPTED)
        printf(" refused %" PRIu64 " at %" PRIu64, reply.refused, reply.refused_at);
    else if (reply.found == 0)
        printf(" absent heads %" PRIu64 " rows 0", reply.heads);
    else {
        printf(" at %" PRIu64 " size %" PRIu64 " heads %" PRIu64 " rows %" PRIu64, reply.at, reply.size,
               reply.heads, reply.rows);
        if (!cutting)
            tell_rows(reply.rows);
    }
    putchar('\n');
}

// How many numbers each table of uz_open has.
static size_t numbers = UZ_MOST_NUMBERS;

static bool is_zero(const uint64_t *of, uint64_t from) {
    for (uint64_t i = from; i < numbers; i++)
        if (of[i] != 0)
            return false;
    return true;
}

static void tell_found(const char *name, uz_found found, const uint64_t *of) {
    printf(" %s", name);
    if (found.found == 0)
        printf(" absent");
    else
        printf(" at %" PRIu64 " size %" PRIu64, found.at, found.size);
    printf(" rows %" PRIu64, found.rows);
    for (uint64_t row = 0; row < found.rows && !cutting; row++)
        tell_cells(of, row);
    printf(" rest %s", is_zero(of, found.rows * UZ_WIDTH) ? "0" : "dirty");
}

// The tables are filled with ones before the call, so that a number that it does not write is seen.
static void tell_open(void) {
    for (size_t i = 0; i < 1 + PARTS; i++)
        memset(tables[i], 0xFF, numbers * sizeof *tables[i]);
    uz_opened reply = uz_open(recording, length, tables[0], numbers, tables[1], numbers, tables[2], numbers, tables[3],
                              numbers, tables[4], numbers, mode);
    if (reply.refused != UZ_ACCEPTED) {
        bool zero = true;
        for (size_t i = 0; i < 1 + PARTS; i++)
            zero = zero && is_zero(tables[i], 0);
        printf("refused %" PRIu64, reply.refused);
        if (reply.id != 0)
            printf(" %" PRIX64, reply.id);
        printf(" at %" PRIu64 " tables %s\n", reply.refused_at, zero ? "0" : "dirty");
        return;
    }
    printf("heads %" PRIu64, reply.heads);
    tell_found("info", reply.info, tables[0]);
    tell_found("tracks", reply.tracks, tables[1]);
    tell_found("attachments", reply.attachments, tables[2]);
    tell_found("chapters", reply.chapters, tables[3]);
    tell_found("tags", reply.tags, tables[4]);
    putchar('\n');
}

static void tell_address(const part *of, uint64_t address) {
    uz_part reply = uz_find_part(recording, length, of->id, table, UZ_MOST_NUMBERS, mode);
    uz_place place =
        uz_whose_byte(recording, length, reply.at, reply.size, of->parent, address, table, UZ_MOST_NUMBERS, mode);
    if (place.refused != UZ_ACCEPTED)
        printf("whose %" PRIu64 " refused %" PRIu64 " at %" PRIu64 "\n", address, place.refused, place.refused_at);
    else
        printf("whose %" PRIu64 " row %" PRIu64 " %s\n", address, place.row,
               place.in_payload ? "payload" : "header");
}

static int load(const char *name) {
    FILE *file = fopen(name, "rb");
    if (file == NULL)
        return 1;
    long end = fseek(file, 0, SEEK_END) == 0 ? ftell(file) : -1;
    length = end > 0 ? (size_t)end : 0;
    recording = malloc(length + 1);
    int failed = end < 0 || recording == NULL || fseek(file, 0, SEEK_SET) != 0 ||
                 fread(recording, 1, length, file) != length;
    fclose(file);
    return failed;
}

// Every length of the recording. What is behind a cut is not there for the reader: it has the length alone.
static void tell_cuts(void) {
    size_t whole = length;
    numbers = 1024 * UZ_WIDTH;
    for (length = 0; length <= whole; length++) {
        printf("cut %zu\n", length);
        for (size_t i = 0; i < PARTS; i++)
            tell_part(&parts[i]);
        tell_open();
    }
}

int main(int count, char **words) {
    for (; count > 1 && words[1][0] == '-'; count--, words++) {
        if (strcmp(words[1], "--live") == 0)
            mode = UZ_LIVE;
        else if (strcmp(words[1], "--cuts") == 0)
            cutting = true;
        else if (strcmp(words[1], "--open") == 0)
            opening = true;
        else
            count = 1;
    }
    if (count < 2 || ((cutting || opening) && count > 2) || (cutting && opening)) {
        fputs("usage: parts [--live] FILE [ID ADDRESS..], or parts [--live] --cuts|--open FILE\n", stderr);
        return 2;
    }
    if (load(words[1])) {
        fputs("parts: the file can't be read\n", stderr);
        return 1;
    }
    if (cutting || opening) {
        cutting ? tell_cuts() : tell_open();
        return ferror(stdout) || fflush(stdout) != 0;
    }
    for (size_t i = 0; i < PARTS; i++) {
        if (count == 2)
            tell_part(&parts[i]);
        else if (strtoul(words[2], NULL, 16) == parts[i].id)
            for (int k = 3; k < count; k++)
                tell_address(&parts[i], strtoull(words[k], NULL, 10));
    }
    return ferror(stdout) || fflush(stdout) != 0;
}
