// The time of a live search by the C face: live [MEBIBYTES], 1100 if none are named. The recording is made in memory:
// a Segment and Clusters of unknown size, each Cluster of 256 blocks, and Tags behind all of them. It is searched for
// Tags in live mode at a quarter of that length, at half of it and whole, with blocks of 4,096 bytes and with blocks of
// 16; the least of nine times counts. Printed are the time, that for a header, and what a doubling takes.
//
// Status 0: Tags was found where it is. Status 1: it was not. Status 2: wrong arguments. Status 3: there is no memory.
#define _DEFAULT_SOURCE
#include "uzrafmed.h"

#include <inttypes.h>
#include <stdbool.h>
#include <stdio.h>
#include <stdlib.h>
#include <string.h>
#include <sys/mman.h>
#include <time.h>

#define RUNS 9
#define BLOCKS 256

static uint64_t table[UZ_WIDTH * 16];

static double now(void) {
    struct timespec at;
    clock_gettime(CLOCK_PROCESS_CPUTIME_ID, &at);
    return (double)at.tv_sec + (double)at.tv_nsec / 1e9;
}

static size_t put(uint8_t *to, size_t at, const void *bytes, size_t count) {
    memcpy(to + at, bytes, count);
    return at + count;
}

// A recording of about so many bytes; how many headers a search passes is left in `headers`. Of a block the first byte
// of its payload alone is written.
static size_t write_live(uint8_t *to, size_t size, size_t block, uint64_t *headers) {
    static const uint8_t segment[] = {0x18, 0x53, 0x80, 0x67, 0x01, 0xFF, 0xFF, 0xFF, 0xFF, 0xFF, 0xFF, 0xFF};
    static const uint8_t cluster[] = {0x1F, 0x43, 0xB6, 0x75, 0x01, 0xFF, 0xFF, 0xFF, 0xFF, 0xFF, 0xFF, 0xFF};
    static const uint8_t tags[] = {0x12, 0x54, 0xC3, 0x67, 0x82, 0xEC, 0x80};
    size_t at = put(to, 0, segment, sizeof segment);
    *headers = 1;
    while (at < size) {
        at = put(to, at, cluster, sizeof cluster);
        *headers += 1;
        for (unsigned n = 0; n < BLOCKS && at < size; n++) {
            uint8_t header[] = {0xA3, (uint8_t)(0x40 | block >> 8), (uint8_t)(block & 0xFF)};
            at = put(to, at, header, sizeof header);
            to[at] = 0x81;
            at += block;
            *headers += 1;
        }
    }
    *headers += 1;
    return put(to, at, tags, sizeof tags);
}

// The least time of some searches; below 0 if a reply is not the one that is due.
static double searched(const uint8_t *recording, size_t length) {
    double least = -1;
    for (unsigned n = 0; n < RUNS; n++) {
        double from = now();
        uz_part said = uz_find_part(recording, length, UZ_TAGS, table, sizeof table / sizeof *table, UZ_LIVE);
        double time = now() - from;
        if (said.found != 1 || said.at != length - 2 || said.size != 2 || said.rows != 1)
            return -1;
        if (least < 0 || time < least)
            least = time;
    }
    return least;
}

static bool measured(uint8_t *to, size_t size, size_t block) {
    bool good = true;
    double before = -1;
    for (size_t part = 4; part > 0; part /= 2) {
        uint64_t headers;
        size_t length = write_live(to, size / part, block, &headers);
        double time = searched(to, length);
        printf("| %zu | %zu | %" PRIu64 " | %.4f | %.2f |", block, length, headers, time,
               time * 1e9 / (double)headers);
        if (before > 0)
            printf(" %.2f |\n", time / before);
        else
            printf(" |\n");
        fflush(stdout);
        good = good && time >= 0;
        before = time;
    }
    return good;
}

int main(int count, char **words) {
    size_t mebibytes = count > 1 ? (size_t)strtoul(words[1], NULL, 10) : 1100;
    if (count > 2 || mebibytes < 8 || mebibytes > 4000) {
        fputs("usage: live [MEBIBYTES], 8 to 4000\n", stderr);
        return 2;
    }
    size_t size = mebibytes << 20;
    uint8_t *to =
        mmap(NULL, size + (1 << 16), PROT_READ | PROT_WRITE, MAP_PRIVATE | MAP_ANONYMOUS | MAP_NORESERVE, -1, 0);
    if (to == MAP_FAILED) {
        fputs("live: there is no memory for the recording\n", stderr);
        return 3;
    }
    puts("| Bytes of a block | Bytes | Headers | Seconds | ns a header | Beside the half |\n|---|---|---|---|---|---|");
    bool good = measured(to, size, 4096);
    good = measured(to, size, 16) && good;
    if (!good)
        puts("live: Tags was not found where it is");
    return good ? 0 : 1;
}
