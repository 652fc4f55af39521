// Recordings as trees of elements: bytes are read into a tree as far as they are one, and a tree is
// written as bytes again, with sizes that fit or are damaged.
#ifndef HOSTILE_TREES_H
#define HOSTILE_TREES_H

#include "../viewer/replies.h"

#include <string.h>

#define COUNT(list) (sizeof(list) / sizeof *(list))

// The masters that a tree may have.
static const uint32_t masters[] = {
    SEGMENT,    SEEK_HEAD,  SEEK,   UZ_TRACKS, UZ_ATTACHMENTS, UZ_CHAPTERS, UZ_TAGS,    0x1549A966,
    0x1A45DFA3, 0xAE,       0xE0,   0xE1,      0x61A7,         0x45B9,      0xB6,       0x80,
    0x8F,       0x6944,     0x6911, 0x7373,    0x63C0,         0x67C8,      0x6924,     0x6D80,
    0x6240,     0x5034,     0x5035, 0x55B0,    0x55D0,         0xE2,        0x1C53BB6B, 0xBB,
    0xB7,       0x1F43B675, 0xA0,   0xA1,      0x75A1,         0xA6,
};

static bool is_master(uint32_t id) {
    for (size_t i = 0; i < COUNT(masters); i++)
        if (masters[i] == id)
            return true;
    return false;
}

// ---- Trees ----

#define NODES 6000
#define DEEP 40

// An element; or, if `id` is 0, bytes that are none.
typedef struct {
    uint32_t id;
    unsigned width; // how many bytes its size has; 0 for as few as can be
    bool damaged;   // its size is `claimed`, not the true one
    uint64_t claimed;
    bool holds;           // it has children, not bytes
    int first, next;      // the first child and the next sibling, or -1
    const uint8_t *bytes; // the bytes of a leaf
    size_t length;
    size_t times; // how often what it holds is written
} node;

static node nodes[NODES];
static int used;

static int new_node(uint32_t id) {
    if (used == NODES)
        return -1;
    node made = {id, 0, false, 0, false, -1, -1, NULL, 0, 1};
    nodes[used] = made;
    return used++;
}

// Reads bytes as elements; what is no element that fits becomes plain bytes. Answers the first.
static int read_tree(recording from, unsigned depth) {
    int first = -1, last = -1;
    uint64_t at = 0;
    while (at < from.length) {
        uint64_t id = 0, size = 0;
        unsigned length = depth < DEEP && used < NODES - 1 ? header(from, at, &id, &size) : 0;
        int made = new_node((uint32_t)id);
        if (made < 0)
            break;
        if (length == 0) {
            nodes[made].id = 0;
            nodes[made].bytes = from.bytes + at;
            nodes[made].length = (size_t)(from.length - at);
            at = from.length;
        } else {
            unsigned octets = id > 0xFFFFFF ? 4 : id > 0xFFFF ? 3 : id > 0xFF ? 2 : 1;
            nodes[made].width = length - octets;
            at += length;
            uint64_t left = from.length - at;
            if (size > left) {
                nodes[made].damaged = true;
                nodes[made].claimed = size;
                size = left;
            }
            if (is_master((uint32_t)id)) {
                recording inside = {from.bytes + at, (size_t)size};
                nodes[made].holds = true;
                int child = read_tree(inside, depth + 1);
                nodes[made].first = child;
            } else {
                nodes[made].bytes = from.bytes + at;
                nodes[made].length = (size_t)size;
            }
            at += size;
        }
        if (last < 0)
            first = made;
        else
            nodes[last].next = made;
        last = made;
    }
    return first;
}

typedef struct {
    uint8_t *bytes;
    size_t length, room;
} output;

static void put(output *to, const uint8_t *bytes, size_t length) {
    if (length > to->room - to->length)
        length = to->room - to->length;
    if (length > 0)
        memmove(to->bytes + to->length, bytes, length);
    to->length += length;
}

static void put_big(output *to, uint64_t number, unsigned bytes) {
    while (bytes-- > 0) {
        uint8_t byte = (uint8_t)(number >> 8 * bytes);
        put(to, &byte, 1);
    }
}

static unsigned id_bytes(uint32_t id) {
    return id > 0xFFFFFF ? 4 : id > 0xFFFF ? 3 : id > 0xFF ? 2 : 1;
}

static void put_size(output *to, uint64_t size, unsigned width) {
    if (width == 0)
        width = 1;
    while (width < 8 && size >> 7 * width != 0)
        width++;
    put_big(to, (UINT64_C(1) << 7 * width) | (size & ((UINT64_C(1) << 7 * width) - 1)), width);
}

// Writes the elements from one on, each behind a header for what it really holds or claims.
static void write_tree(output *to, int from) {
    for (int i = from; i >= 0; i = nodes[i].next) {
        const node *it = &nodes[i];
        if (it->id == 0) {
            put(to, it->bytes, it->length);
            continue;
        }
        // The payload is written behind the longest header, and then moved.
        size_t start = to->length;
        if (to->room - start < 12)
            return;
        to->length += 12;
        for (size_t n = 0; n < it->times; n++)
            if (it->holds)
                write_tree(to, it->first);
            else
                put(to, it->bytes, it->length);
        size_t size = to->length - start - 12;
        to->length = start;
        put_big(to, it->id, id_bytes(it->id));
        put_size(to, it->damaged ? it->claimed : size, it->width);
        put(to, to->bytes + start + 12, size);
    }
}

#endif
