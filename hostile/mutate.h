// The fuzzer's own mutations: a recording is read into a tree, the tree is changed by chance, and
// written again, with seek entries that lead to what they name.
#ifndef HOSTILE_MUTATE_H
#define HOSTILE_MUTATE_H

#include "../viewer/chance.h"
#include "trees.h"

// ---- Chance ----

// Mostly small, at times near an edge of 64 bits.
static uint64_t any_number(void) {
    switch (any(6)) {
    case 0:
        return any(16);
    case 1:
        return any(300);
    case 2:
        return UINT64_C(1) << any(64);
    case 3:
        return (UINT64_C(1) << any(64)) - 1;
    case 4:
        return UINT64_MAX - any(4096);
    default:
        return any(5000);
    }
}

// ---- Ids ----

static const uint32_t heads_and_parts[] = {SEEK_HEAD, UZ_TRACKS, UZ_ATTACHMENTS, UZ_CHAPTERS,
                                           UZ_TAGS};

// Leaves of each kind, some ids in no list, and ids that RFC 8794 bars.
static const uint32_t leaves[] = {
    0xEC,     0xBF,   0x53AB, 0x53AC,   0xD7,   0x73C5,   0x83,       0x86,     0x536E, 0x22B59C,
    0x22B59D, 0x63A2, 0xB5,   0x78B5,   0x9F,   0x6264,   0x4461,     0xFB,     0x75A2, 0x53AE,
    0x45A3,   0x447A, 0x4487, 0x4485,   0x4484, 0x68CA,   0x63CA,     0x466E,   0x4660, 0x465C,
    0x46AE,   0x467E, 0x91,   0x92,     0x98,   0x73C4,   0x85,       0x437C,   0x437E, 0x437D,
    0x45BC,   0x45BD, 0x45DB, 0x45DD,   0x4489, 0x2AD7B1, 0x7BA9,     0x4D80,   0x5741, 0x55AB,
    0x55AF,   0x4282, 0x4286, 0xFF,     0x407F, 0x21A7,   0x1043A771, 0x23314F, 0x55D1, 0x7BA9,
    0x9B,     0xA3,   0xFD,   0x2383E3, 0x4598, 0x6E67,   0x45E4,
};

static uint32_t any_id(void) {
    switch (any(8)) {
    case 0:
    case 1:
        return heads_and_parts[any(COUNT(heads_and_parts))];
    case 2:
    case 3:
        return masters[any(COUNT(masters))];
    case 4:
        return 0x80 + (uint32_t)any(0x80);
    default:
        return leaves[any(COUNT(leaves))];
    }
}

// Bytes that a change needs.
static uint8_t pool[1 << 16];
static size_t pooled;

static uint8_t *room_for(size_t length) {
    if (length > sizeof pool - pooled)
        return NULL;
    pooled += length;
    return pool + pooled - length;
}

// ---- New elements ----

static int new_leaf(uint32_t id) {
    static const size_t lengths[] = {0, 1, 2, 3, 4, 5, 7, 8, 9, 16, 40};
    int made = new_node(id);
    size_t length = lengths[any(COUNT(lengths))];
    if (any(4) == 0)
        length = any(2) == 0 ? 4 : 8;
    uint8_t *bytes = made < 0 ? NULL : room_for(length);
    if (bytes == NULL)
        return made;
    // Texts that are UTF-8, some that are not, and floats at the edges: no numbers, the largest,
    // the least.
    static const struct {
        const char *bytes;
        size_t length;
    } bodies[] = {
        {"abcdefgh", 8},
        {"\xC3\xA4\xC2\x80", 4},
        {"\xE2\x82\xAC\xEF\xBF\xBF", 6},
        {"\xF0\x9F\x94\xA7\xF4\x8F\xBF\xBF", 8},
        {"\xED\xA0\x80\xC0\x80", 5},
        {"\xE0\x9F\xBF\xF4\x90\x80\x80", 7},
        {"\xF0\x8F\xBF\xBF", 4},
        {"\xC1\xBF\xFF\x80", 4},
        {"\x7F\xC0\x00\x00", 4},
        {"\xFF\x80\x00\x01", 4},
        {"\x7F\x80\x00\x00", 4},
        {"\x00\x00\x00\x01", 4},
        {"\x7F\xF0\x00\x00\x00\x00\x00\x01", 8},
    };
    size_t body = (size_t)any(any(2) == 0 ? COUNT(bodies) : 4);
    bool random = any(4) == 0;
    for (size_t i = 0; i < length; i++)
        bytes[i] =
            random ? (uint8_t)any(256) : (uint8_t)bodies[body].bytes[i % bodies[body].length];
    nodes[made].bytes = bytes;
    nodes[made].length = length;
    return made;
}

// A seek entry; where it leads is set when the recording is whole.
static int new_seek(void) {
    int entry = new_node(SEEK), id = new_node(SEEK_ID), position = new_node(SEEK_POSITION);
    size_t width = any(4) == 0 ? (size_t)any(9) : 2;
    uint8_t *bytes = position < 0 ? NULL : room_for(4 + width);
    if (bytes == NULL)
        return -1;
    uint32_t named = heads_and_parts[any(COUNT(heads_and_parts))];
    for (unsigned i = 0; i < 4; i++)
        bytes[i] = (uint8_t)(named >> (24 - 8 * i));
    memset(bytes + 4, any(8) == 0 ? 0xFF : 0, width);
    nodes[id].bytes = bytes;
    nodes[id].length = 4;
    nodes[position].bytes = bytes + 4;
    nodes[position].length = width;
    nodes[entry].holds = true;
    nodes[entry].first = id;
    nodes[id].next = position;
    return entry;
}

static int new_head(void) {
    int head = new_node(SEEK_HEAD);
    if (head < 0)
        return -1;
    nodes[head].holds = true;
    for (uint64_t n = any(4); n > 0; n--) {
        int entry = new_seek();
        if (entry < 0)
            break;
        nodes[entry].next = nodes[head].first;
        nodes[head].first = entry;
    }
    return head;
}

static int new_element(unsigned depth) {
    uint64_t kind = any(10);
    if (kind == 0)
        return new_seek();
    if (kind == 1)
        return new_head();
    uint32_t id = any_id();
    if (!is_master(id) || depth > 6)
        return new_leaf(id);
    int made = new_node(id);
    if (made < 0)
        return -1;
    nodes[made].holds = true;
    for (uint64_t n = any(4); n > 0; n--) {
        int child = new_element(depth + 1);
        if (child < 0)
            break;
        // A new element may be the first of some.
        int last = child;
        while (nodes[last].next >= 0)
            last = nodes[last].next;
        nodes[last].next = nodes[made].first;
        nodes[made].first = child;
    }
    return made;
}

// The size of an element becomes unknown: all ones in so many bytes.
static void open_end(int which, unsigned width) {
    nodes[which].damaged = true;
    nodes[which].width = width;
    nodes[which].claimed = (UINT64_C(1) << 7 * width) - 1;
}

// A recording: a segment with heads, parts and other elements, at times a live one. Answers its
// first element.
static int new_recording(void) {
    int segment = new_node(SEGMENT);
    bool live = any(2) == 0;
    if (segment < 0)
        return -1;
    nodes[segment].holds = true;
    if (live && any(3) != 0)
        open_end(segment, any(2) == 0 ? 1 : 8);
    for (uint64_t n = 1 + any(8); n > 0; n--) {
        int child;
        uint64_t kind = any(4);
        if (kind == 0) {
            child = new_head();
        } else if (kind == 1) {
            child = new_node(heads_and_parts[1 + any(4)]);
            if (child >= 0)
                nodes[child].holds = true;
            for (uint64_t k = any(6); child >= 0 && k > 0; k--) {
                int inside = new_element(0);
                if (inside < 0)
                    break;
                nodes[inside].next = nodes[child].first;
                nodes[child].first = inside;
            }
        } else {
            child = new_element(3);
        }
        if (child < 0)
            break;
        if (live && any(2) == 0 && nodes[child].holds) {
            nodes[child].id = CLUSTER;
            open_end(child, any(2) == 0 ? 1 : 8);
        }
        nodes[child].next = nodes[segment].first;
        nodes[segment].first = child;
    }
    return segment;
}

// ---- Changes ----

// A copy of an element with all that it holds.
static int copied(int from) {
    int made = new_node(nodes[from].id);
    if (made < 0)
        return -1;
    int first = -1, last = -1;
    for (int i = nodes[from].holds ? nodes[from].first : -1; i >= 0; i = nodes[i].next) {
        int child = copied(i);
        if (child < 0)
            break;
        if (last < 0)
            first = child;
        else
            nodes[last].next = child;
        last = child;
    }
    nodes[made] = nodes[from];
    nodes[made].next = -1;
    nodes[made].first = first;
    return made;
}

// The element `which` gets one change.
static void change(int *root, int which) {
    node *it = &nodes[which];
    int made;
    switch (any(16)) {
    case 0:
        it->id = any_id();
        break;
    case 14: // An unknown size, mostly on a Segment or Cluster.
    case 15:
        if (any(2) == 0)
            it->id = any(3) == 0 ? SEGMENT : CLUSTER;
        open_end(which, 1 + (unsigned)any(8));
        break;
    case 1:
        it->damaged = true;
        it->claimed = any(2) == 0 ? any_number() : it->length + any(5) - 2;
        break;
    case 2:
        it->width = 1 + (unsigned)any(8);
        break;
    case 3: // What follows takes its place.
        if (it->next >= 0)
            *it = nodes[it->next];
        break;
    case 4: // Copies behind it, few or many.
        for (uint64_t n = any(8) == 0 ? 1 + any(100) : 1; n > 0; n--) {
            made = copied(which);
            if (made < 0)
                break;
            nodes[made].next = it->next;
            it->next = made;
        }
        break;
    case 5:
    case 6:
    case 7: // A new element behind it, or first in it.
        made = new_element(0);
        if (made < 0)
            break;
        if (it->holds && any(2) == 0) {
            nodes[made].next = it->first;
            it->first = made;
        } else {
            nodes[made].next = it->next;
            it->next = made;
        }
        break;
    case 8: // Into a new master, or into many.
        for (uint64_t n = any(4) == 0 ? any(17) : 1; n > 0; n--) {
            made = new_node(any(3) == 0 ? it->id : masters[any(COUNT(masters))]);
            if (made < 0)
                break;
            node inner = *it;
            inner.next = -1;
            it->id = nodes[made].id;
            nodes[made] = inner;
            it->holds = true;
            it->first = made;
            it->damaged = false;
            it->width = 0;
        }
        break;
    case 9:
    case 10: // Another body.
        made = new_leaf(it->id);
        if (made >= 0 && !it->holds) {
            it->bytes = nodes[made].bytes;
            it->length = nodes[made].length;
        } else if (it->holds) {
            it->first = -1;
        }
        break;
    case 11: // All that is in it, or behind it, once more.
        made = copied(which);
        if (made >= 0) {
            nodes[made].next = *root;
            *root = made;
        }
        break;
    case 12: // Zeros, or other bytes that are no header.
        made = new_node(0);
        if (made >= 0) {
            nodes[made].length = 1 + (size_t)any(12);
            uint8_t *bytes = room_for(nodes[made].length);
            if (bytes == NULL) {
                nodes[made].length = 0;
                break;
            }
            memset(bytes, any(2) == 0 ? 0 : (int)any(256), nodes[made].length);
            nodes[made].bytes = bytes;
            nodes[made].next = it->next;
            it->next = made;
        }
        break;
    default:
        it->damaged = false;
    }
}

// ---- Seek entries ----

// The address after the header of the first segment.
static bool segment_start(recording from, uint64_t *start) {
    uint64_t at = 0, id, size;
    for (;;) {
        unsigned length = header(from, at, &id, &size);
        if (length == 0)
            return false;
        at += length;
        if (id == SEGMENT) {
            *start = at;
            return true;
        }
        if (size > from.length - at)
            return false;
        at += size;
    }
}

#define PLACES 256

// Sets positions so that entries lead to an element of the id that they name; `all` of them, or
// most.
static void link_heads(uint8_t *bytes, size_t length, bool all) {
    recording from = {bytes, length};
    uint64_t start;
    if (!segment_start(from, &start))
        return;
    uint64_t places[PLACES];
    uint32_t ids[PLACES];
    size_t count = 0, links = 0;
    for (size_t i = (size_t)start; i + 5 <= length && count < PLACES; i++) {
        uint32_t id = (uint32_t)bytes[i] << 24 | (uint32_t)bytes[i + 1] << 16 |
                      (uint32_t)bytes[i + 2] << 8 | bytes[i + 3];
        // The id in a seek entry is no element.
        bool named = i >= 3 && bytes[i - 3] == 0x53 && bytes[i - 2] == 0xAB;
        for (size_t k = 0; k < COUNT(heads_and_parts); k++)
            if (id == heads_and_parts[k] && !named) {
                places[count] = i - start;
                ids[count++] = id;
                break;
            }
    }
    for (size_t i = (size_t)start; count > 0 && i + 10 <= length; i++) {
        if (bytes[i] != 0x53 || bytes[i + 1] != 0xAB || bytes[i + 2] != 0x84)
            continue;
        if (bytes[i + 7] != 0x53 || bytes[i + 8] != 0xAC || (bytes[i + 9] & 0xF0) != 0x80)
            continue;
        uint32_t id = (uint32_t)bytes[i + 3] << 24 | (uint32_t)bytes[i + 4] << 16 |
                      (uint32_t)bytes[i + 5] << 8 | bytes[i + 6];
        unsigned width = bytes[i + 9] & 0x0F;
        if (width > 8 || i + 10 + width > length || (!all && any(6) == 0))
            continue;
        // The links of heads go on from one to the next, so that chains are long.
        size_t from_one = id == SEEK_HEAD && any(4) != 0 ? ++links : (size_t)any(count);
        for (size_t k = 0; k < count; k++) {
            size_t place = (from_one + k) % count;
            if (ids[place] != id)
                continue;
            for (unsigned j = 0; j < width; j++)
                bytes[i + 10 + j] = (uint8_t)(places[place] >> 8 * (width - 1 - j));
            break;
        }
    }
}

// Changes a recording in place by some changes of its tree. Answers its new length.
static size_t change_tree(uint8_t *bytes, size_t length, size_t room) {
    static uint8_t before[1 << 20], after[1 << 20];
    if (length > sizeof before)
        return length;
    if (length > 0)
        memcpy(before, bytes, length);
    used = 0;
    pooled = 0;
    recording from = {before, length};
    int root = any(40) == 0 ? new_recording() : read_tree(from, 0);
    if (root < 0)
        root = new_recording();
    for (uint64_t n = 1 + any(4); n > 0; n--)
        change(&root, (int)any((uint64_t)used));
    output to = {after, 0, room < sizeof after ? room : sizeof after};
    write_tree(&to, root);
    if (any(10) == 0)
        to.length = (size_t)any(to.length + 1);
    if (any(3) != 0)
        link_heads(after, to.length, any(2) == 0);
    memcpy(bytes, after, to.length);
    return to.length;
}

#endif
