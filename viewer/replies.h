// What the tests of the seven calls of include/uzrafmed.h share: memory between inaccessible pages,
// and what the header says of all replies. A program that includes this defines `check`, which is
// told each thing that has to hold, and `give_up`, for a test that can't go on.
#ifndef UZ_REPLIES_H
#define UZ_REPLIES_H

#include "uzrafmed.h"

#include <stdbool.h>
#include <string.h>
#include <sys/mman.h>

// A multiple of the page size of every machine that this runs on.
#define PAGE 65536

// What a number holds before a call.
#define FILLED UINT64_C(0xA5C3A5C3A5C3A5C3)

// The ids that the tests use by name.
#define SEGMENT UINT32_C(0x18538067)
#define SEEK_HEAD UINT32_C(0x114D9B74)
#define SEEK UINT32_C(0x4DBB)
#define SEEK_ID UINT32_C(0x53AB)
#define SEEK_POSITION UINT32_C(0x53AC)
#define CLUSTER UINT32_C(0x1F43B675)
#define EBML UINT32_C(0x1A45DFA3)
#define VOID UINT32_C(0xEC)
#define DATE UINT32_C(0x4461) // the one id of its kind

static const uint32_t parts[] = {UZ_TRACKS, UZ_ATTACHMENTS, UZ_CHAPTERS, UZ_TAGS};
static const uint32_t parents[] = {UZ_UNDER_TRACKS, UZ_UNDER_ATTACHMENTS, UZ_UNDER_CHAPTERS,
                                   UZ_UNDER_TAGS};

// The five that uz_open reads, in the order in which it seeks them.
#define FIVE 5
static const uint32_t five[FIVE] = {UZ_INFO, UZ_TRACKS, UZ_ATTACHMENTS, UZ_CHAPTERS, UZ_TAGS};
static const uint32_t five_parents[FIVE] = {UZ_UNDER_INFO, UZ_UNDER_TRACKS, UZ_UNDER_ATTACHMENTS,
                                            UZ_UNDER_CHAPTERS, UZ_UNDER_TAGS};

static void check(bool good, const char *what);
static void give_up(const char *what);

// The mode of the calls that are made and checked now; any number.
static uint32_t mode = UZ_PLAIN;

// ---- Memory between inaccessible pages ----

typedef struct {
    uint8_t *first;
    size_t size;
} arena;

static arena make_arena(size_t size) {
    arena made;
    made.size = (size + PAGE - 1) / PAGE * PAGE;
    uint8_t *all = mmap(NULL, made.size + 2 * (size_t)PAGE, PROT_NONE,
                        MAP_PRIVATE | MAP_ANONYMOUS | MAP_NORESERVE, -1, 0);
    if (all == MAP_FAILED)
        give_up("there is no memory for a test");
    made.first = all + PAGE;
    if (mprotect(made.first, made.size, PROT_READ | PROT_WRITE) != 0)
        give_up("memory can't be made accessible");
    return made;
}

static void allow(arena in, int rights) {
    if (mprotect(in.first, in.size, rights) != 0)
        give_up("the rights of memory can't be changed");
}

typedef struct {
    const uint8_t *bytes;
    size_t length;
} recording;

typedef struct {
    uint64_t *table;
    size_t numbers;
    arena in;
} lent;

// A table of numbers that are all FILLED, and so is the rest of its arena.
static lent lend(arena in, size_t numbers, bool front) {
    size_t room = in.size / sizeof(uint64_t);
    if (numbers > room)
        give_up("a table is too long for a test");
    uint64_t *first = (uint64_t *)(void *)in.first;
    for (size_t i = 0; i < room; i++)
        first[i] = FILLED;
    lent made = {front ? first : first + room - numbers, numbers, in};
    return made;
}

static bool all_are(const uint64_t *from, const uint64_t *to, uint64_t number) {
    uint64_t odd = 0;
    while (from < to)
        odd |= *from++ ^ number;
    return odd == 0;
}

// Nothing was written beside the table.
static bool only_table(lent to) {
    const uint64_t *first = (const uint64_t *)(const void *)to.in.first;
    const uint64_t *last = first + to.in.size / sizeof(uint64_t);
    return all_are(first, to.table, FILLED) && all_are(to.table + to.numbers, last, FILLED);
}

static bool zeros_from(lent in, uint64_t row) {
    return all_are(in.table + row * UZ_WIDTH, in.table + in.numbers, 0);
}

static uint64_t cell(lent in, uint64_t row, unsigned column) {
    return in.table[row * UZ_WIDTH + column];
}

// ---- What holds of every reply ----

// An id or size at an address, of at most `most` bytes: its length, or 0 if none is there.
static unsigned vint(recording from, uint64_t at, unsigned most, bool marked, uint64_t *value) {
    if (at >= from.length)
        return 0;
    unsigned octets = 1;
    while (octets <= most && (from.bytes[at] & (0x100u >> octets)) == 0)
        octets++;
    if (octets > most || from.length - at < octets)
        return 0;
    *value = marked ? from.bytes[at] : from.bytes[at] & ((0x100u >> octets) - 1);
    for (unsigned i = 1; i < octets; i++)
        *value = *value << 8 | from.bytes[at + i];
    return octets;
}

// A header at an address: its length, or 0 if none is there.
static unsigned header(recording from, uint64_t at, uint64_t *id, uint64_t *size) {
    unsigned first = vint(from, at, 4, true, id);
    unsigned second = first != 0 ? vint(from, at + first, 8, false, size) : 0;
    return second != 0 ? first + second : 0;
}

// Whether a header with a size of all ones, in its own width, is at an address.
static bool is_unknown(recording from, uint64_t at) {
    uint64_t id, size = 0;
    unsigned first = vint(from, at, 4, true, &id);
    unsigned second = first != 0 ? vint(from, at + first, 8, false, &size) : 0;
    return second != 0 && size + 1 == UINT64_C(1) << 7 * second;
}

// Whether live mode may give another reply than plain mode: such a header is at some address.
static bool may_differ(recording from) {
    for (uint64_t at = 0; at < from.length; at++)
        if (is_unknown(from, at))
            return true;
    return false;
}

// Why no id or size of at most `most` bytes is at an address: bytes are missing, or it is longer,
// which is the refusal `longer`; 0 if one is there.
static uint64_t vint_fault(recording from, uint64_t at, unsigned most, uint64_t longer) {
    uint64_t byte = at;
    while (byte < from.length && from.bytes[byte] == 0)
        byte++;
    if (byte >= from.length)
        return UZ_PAST_END;
    uint64_t zeros = (byte - at) * 8;
    for (unsigned bits = from.bytes[byte]; bits < 0x80; bits <<= 1)
        zeros++;
    if (zeros >= most)
        return longer;
    return from.length - at > zeros ? UZ_ACCEPTED : UZ_PAST_END;
}

// Why no header is at an address: 1, 2 or 3; 0 if one is there.
static uint64_t header_fault(recording from, uint64_t at) {
    uint64_t id;
    uint64_t fault = vint_fault(from, at, 4, UZ_INVALID_ID);
    if (fault != UZ_ACCEPTED)
        return fault;
    return vint_fault(from, at + vint(from, at, 4, true, &id), 8, UZ_INVALID_SIZE);
}

static bool is_utf8(const uint8_t *text, uint64_t length) {
    uint64_t i = 0;
    while (i < length) {
        uint8_t first = text[i++];
        if (first < 0x80)
            continue;
        unsigned more = first >= 0xF0 ? 3 : first >= 0xE0 ? 2 : 1;
        static const uint32_t least[] = {0, 0x80, 0x800, 0x10000};
        if (first < 0xC0 || first > 0xF7 || length - i < more)
            return false;
        uint32_t character = first & (0x3Fu >> more);
        for (unsigned k = 0; k < more; k++, i++) {
            if ((text[i] & 0xC0) != 0x80)
                return false;
            character = character << 6 | (text[i] & 0x3F);
        }
        if (character < least[more] || character > 0x10FFFF)
            return false;
        if (character >= 0xD800 && character <= 0xDFFF)
            return false;
    }
    return true;
}

// Whether a leaf's payload is one of its kind.
static bool is_leaf(recording from, uint64_t at, uint64_t size, uint64_t kind) {
    switch (kind) {
    case UZ_SIGNED:
    case UZ_UNSIGNED:
        return size <= 8;
    case UZ_STRING:
    case UZ_UTF8:
        return is_utf8(from.bytes + at, size);
    case UZ_BINARY:
        return true;
    case UZ_FLOAT:
        return size == 4 || size == 8;
    case UZ_DATE:
        return size == 8;
    }
    return false;
}

// Whether the table's rows are the elements of the payload: each at the place where the one before
// ends, each header as the bytes have it, each master used up by what it holds, each leaf there and
// of its kind, and zeros beyond.
static bool are_rows(recording from, uint64_t at, uint64_t size, uint64_t rows, lent in) {
    if (at > from.length || size > from.length - at || rows > in.numbers / UZ_WIDTH)
        return false;
    // The ends of the masters that are open, and their row numbers plus 1; the payload itself is
    // the first.
    uint64_t ends[UZ_MOST_DEPTH + 2] = {at + size};
    uint64_t masters[UZ_MOST_DEPTH + 2] = {0};
    uint64_t open = 0;
    for (uint64_t row = 0; row < rows; row++) {
        while (open > 0 && ends[open] == at)
            open--;
        uint64_t id, payload;
        unsigned length = header(from, at, &id, &payload);
        if (length == 0 || cell(in, row, UZ_ID) != id || cell(in, row, UZ_PARENT) != masters[open])
            return false;
        if (mode == UZ_LIVE && is_unknown(from, at))
            return false;
        if (cell(in, row, UZ_ADDRESS) != at || cell(in, row, UZ_HEADER) != length)
            return false;
        if (cell(in, row, UZ_PAYLOAD) != payload || cell(in, row, UZ_DEPTH) != open)
            return false;
        at += length;
        if (open > UZ_MOST_DEPTH || at > ends[open] || payload > ends[open] - at)
            return false;
        if (cell(in, row, UZ_KIND) == UZ_MASTER) {
            open++;
            ends[open] = at + payload;
            masters[open] = row + 1;
        } else {
            if (!is_leaf(from, at, payload, cell(in, row, UZ_KIND)))
                return false;
            at += payload;
        }
    }
    for (uint64_t i = 0; i <= open; i++)
        if (ends[i] != at)
            return false;
    return zeros_from(in, rows);
}

// Whether the last number of each row is the first row after it that is not below it. What is below
// a row is told by parents alone: from each row on, up to where there is none.
static bool lead_past(lent in, uint64_t rows) {
    static uint64_t past[UZ_MOST_ROWS];
    if (rows > UZ_MOST_ROWS || rows > in.numbers / UZ_WIDTH)
        return false;
    for (uint64_t row = 0; row < rows; row++) {
        past[row] = row + 1;
        for (uint64_t above = cell(in, row, UZ_PARENT); above != 0;) {
            if (above > row)
                return false;
            if (past[above - 1] == row)
                past[above - 1] = row + 1;
            above = cell(in, above - 1, UZ_PARENT);
        }
    }
    for (uint64_t row = 0; row < rows; row++)
        if (cell(in, row, UZ_AFTER) != past[row])
            return false;
    return true;
}

// Whether a header with the id ends right before the address.
static bool follows_header(recording from, uint64_t at, uint64_t wanted, uint64_t size) {
    for (unsigned length = 2; length <= 12 && length <= at; length++) {
        uint64_t id, payload;
        if (header(from, at - length, &id, &payload) == length && id == wanted && payload == size)
            return true;
    }
    return false;
}

// Whether the fault that a refusal names is at its address, as far as the bytes there tell: not
// what a master had left, how deep it lies, how many rows there are, or what a seek entry says.
static bool is_broken(recording from, uint64_t refused, uint64_t at) {
    if (refused == UZ_BAD_ARGUMENT || refused == UZ_OUTSIDE)
        return at == 0;
    // A 65th head is not looked at.
    if (refused == UZ_TOO_MANY_HEADS)
        return true;
    uint64_t fault = header_fault(from, at);
    if (fault != UZ_ACCEPTED)
        return fault == refused;
    uint64_t id = 0, size = 0;
    uint64_t payload = at + header(from, at, &id, &size);
    bool whole = size <= from.length - payload;
    // In live mode an unknown size comes before all else that is said of a header, but for a
    // Segment or Cluster where a seek entry leads.
    if (mode == UZ_LIVE && is_unknown(from, at))
        return refused == UZ_UNKNOWN_SIZE ||
               (refused == UZ_STALE_ENTRY && (id == SEGMENT || id == CLUSTER));
    // These are masters or, below a part itself, plain bytes: no body of a kind.
    bool body = id != SEGMENT && id != SEEK_HEAD && id != SEEK && id != UZ_INFO &&
                id != UZ_TRACKS && id != UZ_ATTACHMENTS && id != UZ_CHAPTERS && id != UZ_TAGS;
    switch (refused) {
    case UZ_PAST_END:
        return !whole;
    case UZ_INVALID_ID:
        return false;
    case UZ_INVALID_INTEGER:
        return body && size > 8;
    case UZ_INVALID_FLOAT:
        return body && size != 4 && size != 8;
    case UZ_INVALID_DATE:
        return id == DATE && size != 8;
    case UZ_NOT_UTF8:
        return body && whole && !is_utf8(from.bytes + payload, size);
    case UZ_INVALID_SEEK_HEAD:
    case UZ_HEAD_AGAIN:
        return id == SEEK_HEAD;
    case UZ_UNKNOWN_SIZE:
        return false;
    }
    return true;
}

// ---- The way to the parts ----

// What the way leads to: the end of the segment, a seek head or a wanted part at an address, or a
// refusal there.
typedef struct {
    enum { TO_NOTHING, TO_A_HEAD, TO_THE_PART, TO_A_REFUSAL } leads;
    uint64_t at, refused;
} search_way;

// Whether an element ends one of unknown size, a Segment or a Cluster, that it follows.
static bool ends(uint64_t open, uint64_t next) {
    static const uint32_t children[] = {SEEK_HEAD, UZ_INFO,    UZ_TRACKS,      UZ_CHAPTERS,
                                        CLUSTER,   0x1C53BB6B, UZ_ATTACHMENTS, UZ_TAGS};
    if (next == SEGMENT || next == EBML)
        return true;
    for (size_t i = 0; open == CLUSTER && i < sizeof children / sizeof *children; i++)
        if (next == children[i])
            return true;
    return false;
}

// Where a walk over the file's elements and the segment's children stands. `passed` is the id of
// the element of unknown size that is passed over, 0 if none is. `start` is the segment's first
// byte, `told` that the element there was led to before.
typedef struct {
    bool in_segment, endless, told;
    uint64_t at, start, end, passed;
} walk;

// The next seek head or element of a wanted id that the way leads to, in one loop. What is in an
// element of unknown size is passed over too: an unknown Cluster in an unknown Segment is gone
// into, since what ends the one ends the other.
static search_way next_on_the_way(recording from, walk *to, const uint32_t *wanted, size_t count) {
    for (;;) {
        uint64_t id = 0, size = 0, at = to->at;
        uint64_t limit = to->in_segment && !to->endless ? to->end : from.length;
        if (to->passed != 0 && (at >= limit || at >= from.length)) {
            at = at >= limit ? limit : from.length;
            to->passed = 0;
        }
        if (to->in_segment && at >= limit)
            return (search_way){TO_NOTHING, 0, 0};
        uint64_t fault = header_fault(from, at);
        if (fault != UZ_ACCEPTED)
            return (search_way){TO_A_REFUSAL, at, fault};
        uint64_t payload = at + header(from, at, &id, &size);
        bool unknown = mode == UZ_LIVE && is_unknown(from, at);
        if (to->passed != 0 && ends(to->passed, id))
            to->passed = 0;
        if (to->in_segment && to->endless && ends(SEGMENT, id))
            return (search_way){TO_NOTHING, 0, 0};
        if (unknown && id != CLUSTER && (id != SEGMENT || to->passed != 0))
            return (search_way){TO_A_REFUSAL, at, UZ_UNKNOWN_SIZE};
        bool child = to->passed == 0 && to->in_segment;
        if (child && id == SEEK_HEAD)
            return (search_way){TO_A_HEAD, at, 0};
        for (size_t i = 0; child && !to->told && i < count; i++) {
            to->at = at;
            to->told = id == wanted[i];
            if (to->told)
                return (search_way){TO_THE_PART, at, 0};
        }
        to->told = false;
        if (to->passed == 0 && !to->in_segment && id == SEGMENT) {
            to->in_segment = true;
            to->endless = unknown;
            to->start = payload;
            to->end = payload + size;
            to->at = payload;
        } else if (unknown) {
            to->passed = to->passed != 0 ? to->passed : id;
            to->at = payload;
        } else if (child && !to->endless && payload + size > to->end) {
            return (search_way){TO_A_REFUSAL, at, UZ_INVALID_SIZE};
        } else {
            to->at = payload + size;
        }
    }
}

// The way of a search.
static search_way due_way(recording from, uint32_t part) {
    walk to = {false, false, false, 0, 0, 0, 0};
    return next_on_the_way(from, &to, &part, 1);
}

// Whether a reply is one that the way allows: behind a seek head, any but a part without heads.
static bool is_on_the_way(recording from, uint32_t part, uz_part said) {
    search_way way = due_way(from, part);
    uint64_t id, size = 0;
    bool refused = said.refused != UZ_ACCEPTED;
    switch (way.leads) {
    case TO_NOTHING:
        return !refused && said.found == 0 && said.heads == 0;
    case TO_A_REFUSAL:
        return said.refused == way.refused && said.refused_at == way.at;
    case TO_A_HEAD:
        return refused || said.heads > 0;
    case TO_THE_PART:
        way.at += header(from, way.at, &id, &size);
        return refused
                   ? said.refused_at >= way.at
                   : said.found == 1 && said.at == way.at && said.size == size && said.heads == 0;
    }
    return false;
}

// Whether a call may take these arguments.
static bool is_taken(uint64_t length, uint64_t numbers) {
    return length <= UZ_MOST_BYTES && numbers % UZ_WIDTH == 0 && numbers <= UZ_MOST_NUMBERS &&
           (mode == UZ_PLAIN || mode == UZ_LIVE);
}

// What holds of every reply of uz_find_part, and of the table after it.
static void check_part(recording from, uint32_t part, lent to, uz_part said) {
    bool taken =
        is_taken(from.length, to.numbers) &&
        (part == UZ_TRACKS || part == UZ_ATTACHMENTS || part == UZ_CHAPTERS || part == UZ_TAGS);
    check(only_table(to), "find_part writes the table alone");
    check((said.refused == UZ_BAD_ARGUMENT) == !taken, "find_part gives 14 for its arguments");
    if (taken)
        check(is_on_the_way(from, part, said), "the way of a search");
    if (said.refused != UZ_ACCEPTED) {
        check(said.refused <= UZ_BAD_ARGUMENT || said.refused == UZ_UNKNOWN_SIZE,
              "find_part gives 1 to 14 and 17");
        bool named = said.refused == UZ_INVALID_SEEK_HEAD;
        check(named ? said.id == part || said.id == SEEK_HEAD : said.id == 0,
              "the id comes with 8 alone");
        check((said.found | said.at | said.size | said.rows | said.heads) == 0,
              "a refused part is zeros");
        check(is_broken(from, said.refused, said.refused_at), "a part is broken where it says");
        check(zeros_from(to, 0), "the table of a refused part is zeros");
        return;
    }
    check(said.id == 0 && said.heads <= UZ_MOST_HEADS, "an accepted part has no id, and 64 heads");
    check(said.refused_at == 0, "an accepted part is broken nowhere");
    if (said.found == 0) {
        check((said.at | said.size | said.rows) == 0 && zeros_from(to, 0),
              "an absent part is zeros");
        return;
    }
    check(said.found == 1, "found is 0 or 1");
    check(follows_header(from, said.at, part, said.size), "a found part has the id");
    check(are_rows(from, said.at, said.size, said.rows, to), "the rows are the part's elements");
    check(lead_past(to, said.rows), "each row of a part leads past what it holds");
}

// The row that owns an address by the table alone. Counts the owners; there has to be one.
static unsigned owners(lent in, uint64_t rows, uint64_t address, uz_place *owner) {
    unsigned found = 0;
    for (uint64_t row = 0; row < rows; row++) {
        uint64_t first = cell(in, row, UZ_ADDRESS);
        uint64_t payload = first + cell(in, row, UZ_HEADER);
        bool leaf = cell(in, row, UZ_KIND) != UZ_MASTER;
        uint64_t end = payload + (leaf ? cell(in, row, UZ_PAYLOAD) : 0);
        if (address < first || address >= end)
            continue;
        owner->row = row;
        owner->in_payload = address >= payload;
        found++;
    }
    owner->refused = UZ_ACCEPTED;
    owner->refused_at = 0;
    owner->rows = rows;
    return found;
}

static bool is_part(uz_part said, uz_part due) {
    return said.refused == due.refused && said.id == due.id && said.refused_at == due.refused_at &&
           said.found == due.found && said.at == due.at && said.size == due.size &&
           said.rows == due.rows && said.heads == due.heads;
}

static bool same_place(uz_place one, uz_place other) {
    return one.refused == other.refused && one.refused_at == other.refused_at &&
           one.row == other.row && one.in_payload == other.in_payload && one.rows == other.rows;
}

// What holds of every reply of uz_whose_byte, and of the table after it.
static void check_place(recording from, uint64_t start, uint64_t size, uint64_t address, lent to,
                        uz_place said) {
    bool taken = is_taken(from.length, to.numbers) && start <= from.length;
    check(only_table(to), "whose_byte writes the table alone");
    check((said.refused == UZ_BAD_ARGUMENT) == !taken, "whose_byte gives 14 for its arguments");
    if (said.refused != UZ_ACCEPTED) {
        check(said.refused <= UZ_NOT_UTF8 || said.refused == UZ_UNKNOWN_SIZE ||
                  (said.refused >= UZ_TOO_DEEP && said.refused <= UZ_OUTSIDE),
              "whose_byte gives 1 to 7, 12 to 15 and 17");
        check((said.row | said.in_payload | said.rows) == 0, "a refused place is zeros");
        check(zeros_from(to, 0), "the table of a refused place is zeros");
        check(is_broken(from, said.refused, said.refused_at), "a payload is broken where it says");
        check(said.refused == UZ_BAD_ARGUMENT || said.refused == UZ_OUTSIDE ||
                  said.refused_at >= start,
              "a payload is not broken before its start");
        return;
    }
    check(address >= start && address - start < size, "an accepted address is in the payload");
    check(are_rows(from, start, size, said.rows, to), "the rows are the payload's elements");
    check(lead_past(to, said.rows), "each row of a payload leads past what it holds");
    uz_place owner = {0, 0, 0, 0, 0};
    check(owners(to, said.rows, address, &owner) == 1, "a byte has one owner");
    check(same_place(said, owner), "the row named owns the byte");
}

// ---- All parts at once ----

static uz_found *found_in(uz_opened *in, size_t i) {
    uz_found *all[FIVE] = {&in->info, &in->tracks, &in->attachments, &in->chapters, &in->tags};
    return all[i];
}

static bool same_found(uz_found one, uz_found other) {
    return one.found == other.found && one.at == other.at && one.size == other.size &&
           one.rows == other.rows;
}

static bool is_opened(uz_opened said, uz_opened due) {
    bool same = said.refused == due.refused && said.id == due.id &&
                said.refused_at == due.refused_at && said.heads == due.heads;
    for (size_t i = 0; i < FIVE; i++)
        same = same && same_found(*found_in(&said, i), *found_in(&due, i));
    return same;
}

// What is due to uz_open, worked out once more: the way and the entries by their bytes, each
// payload by uz_whose_byte. `met`: the part was read before the first seek head. Nothing is due
// where a head has more elements than a table has rows.
typedef struct {
    uz_opened reply;
    bool met[FIVE], untold;
} opened_whole;

static uint64_t due_tables[FIVE][UZ_MOST_NUMBERS];

static bool no_whole(opened_whole *to, uint64_t refused, uint64_t at, uint64_t id) {
    memset(&to->reply, 0, sizeof to->reply);
    to->reply.refused = refused;
    to->reply.refused_at = at;
    to->reply.id = id;
    return false;
}

// The rows of a payload. One of no bytes has no byte to ask for: that is 15, and zeros.
static bool due_rows(recording from, uint64_t at, uint64_t size, uint32_t parent, uint64_t *table,
                     size_t numbers, uint64_t *rows, opened_whole *to) {
    uz_place place =
        uz_whose_byte(from.bytes, from.length, at, size, parent, at, table, numbers, mode);
    *rows = place.rows;
    return place.refused == UZ_ACCEPTED || (size == 0 && place.refused == UZ_OUTSIDE) ||
           no_whole(to, place.refused, place.refused_at, 0);
}

// Reads the part whose header is at an address, which replaces the one before.
static bool due_part(recording from, size_t i, uint64_t at, const lent lent_to[FIVE],
                     opened_whole *to) {
    uint64_t id, size = 0, rows;
    uint64_t payload = at + header(from, at, &id, &size);
    if (!due_rows(from, payload, size, five_parents[i], due_tables[i], lent_to[i].numbers, &rows,
                  to))
        return false;
    *found_in(&to->reply, i) = (uz_found){1, payload, size, rows};
    return true;
}

// The last entries for the five, and for a further head in the last one.
typedef struct {
    bool named[FIVE + 1];
    uint64_t position[FIVE + 1];
} seek_links;

static uint64_t big(recording from, uint64_t at, uint64_t bytes) {
    uint64_t number = 0;
    for (uint64_t i = 0; i < bytes; i++)
        number = number << 8 | from.bytes[at + i];
    return number;
}

// A row that is a Seek, in a head.
static void due_entry(recording from, lent in, uint64_t row, seek_links *to) {
    uint64_t id = 0, position = 0;
    for (uint64_t k = row + 1; k < cell(in, row, UZ_AFTER); k = cell(in, k, UZ_AFTER)) {
        uint64_t at = cell(in, k, UZ_ADDRESS) + cell(in, k, UZ_HEADER);
        uint64_t size = cell(in, k, UZ_PAYLOAD);
        if (cell(in, k, UZ_ID) == SEEK_ID)
            id = size > 4 ? big(from, at + size - 4, 4) : big(from, at, size);
        else if (cell(in, k, UZ_ID) == SEEK_POSITION)
            position = big(from, at, size);
    }
    for (size_t i = 0; i <= FIVE; i++)
        if (id == (i < FIVE ? five[i] : SEEK_HEAD)) {
            to->named[i] = true;
            to->position[i] = position;
        }
}

static bool due_head(recording from, uint64_t at, seek_links *to, opened_whole *in) {
    static uint64_t table[UZ_MOST_NUMBERS];
    lent rows_of = {table, UZ_MOST_NUMBERS, {NULL, 0}};
    uint64_t id, size = 0, rows;
    uint64_t payload = at + header(from, at, &id, &size);
    to->named[FIVE] = false;
    if (!due_rows(from, payload, size, SEGMENT, table, UZ_MOST_NUMBERS, &rows, in)) {
        in->untold = in->reply.refused == UZ_NO_FREE_ROW;
        return false;
    }
    for (uint64_t row = 0; row < rows; row = cell(rows_of, row, UZ_AFTER))
        if (cell(rows_of, row, UZ_ID) == SEEK)
            due_entry(from, rows_of, row, to);
    return true;
}

// Whether an element of that id is where an entry leads.
static bool due_there(recording from, uint64_t at, uint32_t wanted, opened_whole *to) {
    uint64_t id = 0, size;
    uint64_t fault = header_fault(from, at);
    if (fault != UZ_ACCEPTED)
        return no_whole(to, fault, at, 0);
    header(from, at, &id, &size);
    if (mode == UZ_LIVE && is_unknown(from, at) && id != SEGMENT && id != CLUSTER)
        return no_whole(to, UZ_UNKNOWN_SIZE, at, 0);
    return id == wanted || no_whole(to, UZ_STALE_ENTRY, at, 0);
}

// All heads from the first on, then the five by their entries.
static bool due_by_heads(recording from, uint64_t start, uint64_t at, const lent lent_to[FIVE],
                         opened_whole *to) {
    seek_links by = {{false}, {0}};
    uint64_t seen[UZ_MOST_HEADS], heads = 0;
    for (;;) {
        if (!due_head(from, at, &by, to))
            return false;
        seen[heads++] = at;
        if (!by.named[FIVE])
            break;
        if (by.position[FIVE] > UINT64_MAX - start)
            return no_whole(to, UZ_INVALID_SEEK_HEAD, at, SEEK_HEAD);
        at = start + by.position[FIVE];
        for (uint64_t i = 0; i < heads; i++)
            if (seen[i] == at)
                return no_whole(to, UZ_HEAD_AGAIN, at, 0);
        if (heads == UZ_MOST_HEADS)
            return no_whole(to, UZ_TOO_MANY_HEADS, at, 0);
        if (!due_there(from, at, SEEK_HEAD, to))
            return false;
    }
    for (size_t i = 0; i < FIVE; i++) {
        if (!by.named[i])
            continue;
        if (by.position[i] > UINT64_MAX - start)
            return no_whole(to, UZ_INVALID_SEEK_HEAD, seen[heads - 1], five[i]);
        if (!due_there(from, start + by.position[i], five[i], to) ||
            !due_part(from, i, start + by.position[i], lent_to, to))
            return false;
    }
    to->reply.heads = heads;
    return true;
}

// Works out the reply and the tables, in due_tables; for arguments that are taken.
static opened_whole due_open(recording from, const lent lent_to[FIVE]) {
    opened_whole to;
    walk over = {false, false, false, 0, 0, 0, 0};
    memset(&to, 0, sizeof to);
    for (size_t i = 0; i < FIVE; i++)
        memset(due_tables[i], 0, lent_to[i].numbers * sizeof(uint64_t));
    for (;;) {
        uint64_t id, size;
        size_t i = 0;
        search_way way = next_on_the_way(from, &over, five, FIVE);
        if (way.leads == TO_A_REFUSAL)
            no_whole(&to, way.refused, way.at, 0);
        if (way.leads == TO_A_HEAD)
            due_by_heads(from, over.start, way.at, lent_to, &to);
        if (way.leads != TO_THE_PART)
            return to;
        header(from, way.at, &id, &size);
        while (five[i] != id)
            i++;
        to.met[i] = true;
        if (!due_part(from, i, way.at, lent_to, &to))
            return to;
    }
}

// What holds of every refusal of uz_open, and of the five tables after it.
static void check_no_open(recording from, const lent to[FIVE], uz_opened said) {
    bool named = false;
    for (size_t i = 0; i < FIVE; i++) {
        named = named || said.id == five[i];
        check(same_found(*found_in(&said, i), (uz_found){0, 0, 0, 0}),
              "a refused recording has no parts");
        check(all_are(to[i].table, to[i].table + to[i].numbers, 0),
              "the five tables of a refused recording are zeros");
    }
    check(said.refused <= UZ_BAD_ARGUMENT || said.refused == UZ_UNKNOWN_SIZE,
          "open gives 1 to 14 and 17");
    check(said.refused == UZ_INVALID_SEEK_HEAD ? named || said.id == SEEK_HEAD : said.id == 0,
          "the id comes with 8 alone");
    check(said.heads == 0, "a refused recording has no heads");
    check(is_broken(from, said.refused, said.refused_at), "a recording is broken where it says");
}

// What holds of one of the five parts, and of its table.
static void check_found(recording from, size_t i, lent to, uz_found said) {
    check(said.found <= 1, "found is 0 or 1");
    if (said.found == 0) {
        check((said.at | said.size | said.rows) == 0 && zeros_from(to, 0),
              "an absent part is zeros");
        return;
    }
    check(follows_header(from, said.at, five[i], said.size), "a part has its id");
    check(are_rows(from, said.at, said.size, said.rows, to), "the rows are the part's elements");
    check(lead_past(to, said.rows), "each row of a part leads past what it holds");
}

// Whether what is told of a part behind a head is the reply of the search for it.
static bool is_searched(recording from, size_t i, lent to, uz_found said, uint64_t heads) {
    static uint64_t table[UZ_MOST_NUMBERS];
    uz_part part = uz_find_part(from.bytes, from.length, five[i], table, to.numbers, mode);
    uz_part due = {0, 0, 0, said.found, said.at, said.size, said.rows, heads};
    return is_part(part, due) && memcmp(table, to.table, to.numbers * sizeof *table) == 0;
}

// What holds of every reply of uz_open, and of the five tables after it.
static void check_open(recording from, const lent to[FIVE], uz_opened said) {
    bool taken = true;
    for (size_t i = 0; i < FIVE; i++) {
        taken = taken && is_taken(from.length, to[i].numbers);
        check(only_table(to[i]), "open writes the tables alone");
    }
    check((said.refused == UZ_BAD_ARGUMENT) == !taken, "open gives 14 for its arguments");
    if (said.refused != UZ_ACCEPTED)
        check_no_open(from, to, said);
    else
        check((said.id | said.refused_at) == 0 && said.heads <= UZ_MOST_HEADS,
              "an opened recording has no id, is broken nowhere, and has 64 heads");
    for (size_t i = 0; said.refused == UZ_ACCEPTED && i < FIVE; i++)
        check_found(from, i, to[i], *found_in(&said, i));
    if (!taken)
        return;
    opened_whole due = due_open(from, to);
    if (due.untold)
        return;
    check(is_opened(said, due.reply), "the parts by the rule");
    for (size_t i = 0; said.refused == UZ_ACCEPTED && i < FIVE; i++) {
        check(memcmp(due_tables[i], to[i].table, to[i].numbers * sizeof(uint64_t)) == 0,
              "the table of a part is that of its payload");
        if (i > 0 && said.heads > 0 && !due.met[i])
            check(is_searched(from, i, to[i], *found_in(&said, i), said.heads),
                  "a part that a head leads to is the one that is searched");
    }
}

// ---- The owner without a table ----

// A byte that is asked for, in a payload.
typedef struct {
    uint64_t start, size;
    uint32_t parent;
    uint64_t address;
} pointed;

// The masters of document 01's list. viewer/check holds them to it.
static const uint32_t listed_masters[] = {
    0x80,       0x8E,       0x8F,       0xA0,       0xA6,       0xAE,       0xB6,
    0xB7,       0xBB,       0xC8,       0xDB,       0xE0,       0xE1,       0xE2,
    0xE3,       0xE4,       0xE8,       0xE9,       0x45B9,     0x4DBB,     0x5034,
    0x5035,     0x55B0,     0x55D0,     0x5854,     0x61A7,     0x6240,     0x63C0,
    0x6624,     0x67C8,     0x6911,     0x6924,     0x6944,     0x6D80,     0x7373,
    0x75A1,     0x7E5B,     0x7E7B,     0x1043A770, 0x114D9B74, 0x1254C367, 0x1549A966,
    0x1654AE6B, 0x18538067, 0x1941A469, 0x1A45DFA3, 0x1B538667, 0x1C53BB6B, 0x1F43B675,
};

// Whether an id is a master below a parent: five parents have small sets of their own.
static bool holds_elements(uint32_t parent, uint64_t id) {
    switch (parent) {
    case UZ_INFO:
        return id == 0x6924;
    case UZ_TRACKS:
        return id == 0x6924 || id == 0xAE;
    case UZ_ATTACHMENTS:
        return id == 0x61A7;
    case UZ_CHAPTERS:
        return id == 0x45B9;
    case UZ_TAGS:
        return id == 0x7373;
    }
    for (size_t i = 0; i < sizeof listed_masters / sizeof *listed_masters; i++)
        if (listed_masters[i] == id)
            return true;
    return false;
}

static uz_owned no_owner(uint64_t refused, uint64_t at) {
    uz_owned due = {refused, at, 0, 0, 0};
    return due;
}

// The way down to an element: the header of each that holds it and its own, zeros behind it, and
// how many bytes may be looked at to find it.
typedef struct {
    uint64_t chain[UZ_MOST_LINKS];
    uint64_t looked_at;
} way;

// The element that holds the address among siblings, the first of which stands at `at`: they are
// `depth` masters deep, and have `left` bytes.
static uz_owned owner_among(recording from, uint64_t at, uint64_t left, uint32_t parent,
                            uint64_t address, uint64_t depth, way *down) {
    for (;;) {
        uint64_t id = 0, size = 0;
        uint64_t fault = header_fault(from, at);
        if (fault != UZ_ACCEPTED) {
            // Zeros run on.
            down->looked_at += at < from.length ? from.length - at : 0;
            return no_owner(fault, at);
        }
        unsigned length = header(from, at, &id, &size);
        down->looked_at += length;
        if (mode == UZ_LIVE && is_unknown(from, at))
            return no_owner(UZ_UNKNOWN_SIZE, at);
        if (depth > UZ_MOST_DEPTH)
            return no_owner(UZ_TOO_DEEP, at);
        if (length > left || size > left - length)
            return no_owner(UZ_INVALID_SIZE, at);
        uint64_t behind = address - at;
        bool inside = behind >= length && behind - length < size;
        down->chain[depth] = at;
        if (inside && holds_elements(parent, id))
            return owner_among(from, at + length, size, (uint32_t)id, address, depth + 1, down);
        if (inside || behind < length)
            return (uz_owned){UZ_ACCEPTED, 0, at, inside, depth};
        at += length + size;
        left -= length + size;
    }
}

// The reply of uz_owner that is due, and the way.
static uz_owned due_owner(recording from, pointed asked, way *down) {
    *down = (way){{0}, 0};
    if (!is_taken(from.length, 0) || asked.start > from.length)
        return no_owner(UZ_BAD_ARGUMENT, 0);
    if (asked.address < asked.start || asked.address - asked.start >= asked.size)
        return no_owner(UZ_OUTSIDE, 0);
    uz_owned due = owner_among(from, asked.start, asked.size, asked.parent, asked.address, 0, down);
    for (size_t i = 0; i < UZ_MOST_LINKS; i++)
        if (due.refused != UZ_ACCEPTED || i > due.depth)
            down->chain[i] = 0;
    return due;
}

static bool same_owned(uz_owned one, uz_owned other) {
    return one.refused == other.refused && one.refused_at == other.refused_at &&
           one.at == other.at && one.in_payload == other.in_payload && one.depth == other.depth;
}

// What holds of every reply of uz_owner, by its own numbers and the header that they name.
static void check_owned(recording from, pointed asked, uz_owned said) {
    if (said.refused != UZ_ACCEPTED) {
        bool header_met = said.refused <= UZ_INVALID_SIZE || said.refused == UZ_TOO_DEEP ||
                          said.refused == UZ_UNKNOWN_SIZE;
        check(header_met || said.refused == UZ_BAD_ARGUMENT || said.refused == UZ_OUTSIDE,
              "owner gives 1, 2, 3, 12, 14, 15 and 17");
        check((said.at | said.in_payload | said.depth) == 0, "a refused owner is zeros");
        check(!header_met || is_broken(from, said.refused, said.refused_at),
              "an owner is broken where it says");
        check(header_met ? said.refused_at >= asked.start : said.refused_at == 0,
              "an owner is not broken before the start");
        uint64_t fault = header_met ? header_fault(from, said.refused_at) : UZ_ACCEPTED;
        check(fault == said.refused || (fault == UZ_ACCEPTED && said.refused >= UZ_INVALID_SIZE),
              "a header is broken where it says");
        return;
    }
    uint64_t id, size = 0;
    unsigned length = header(from, said.at, &id, &size);
    check(said.refused_at == 0, "an owner that is told is broken nowhere");
    check(asked.address >= asked.start && asked.address - asked.start < asked.size,
          "an address with an owner is in the payload");
    check(length > 0 && said.at >= asked.start && said.at <= asked.address,
          "an owner has a header, at the start or behind it");
    check(said.in_payload == (asked.address - said.at >= length ? 1 : 0) &&
              asked.address - said.at < length + (said.in_payload != 0 ? size : 0),
          "header or payload holds the byte");
    check(said.depth <= UZ_MOST_DEPTH && said.depth <= (said.at - asked.start) / 2,
          "each master around an owner has a header");
}

// What holds of every reply of uz_owner_chain: it is the owner that is due, and so is the chain.
static void check_chain(lent to, uz_owned said, uz_owned due, const way *down) {
    check(only_table(to), "owner_chain writes the chain alone");
    if (to.numbers > UZ_MOST_LINKS) {
        check(same_owned(said, no_owner(UZ_BAD_ARGUMENT, 0)), "a longer chain is 14");
        check(all_are(to.table, to.table + to.numbers, 0), "and all its numbers are 0");
        return;
    }
    check(same_owned(said, due), "owner and owner_chain give one reply");
    for (size_t i = 0; i < to.numbers; i++)
        check(to.table[i] == down->chain[i], "the chain by the rule");
}

// Whether an owner is the row that was named in an accepted table, and the chain its parents.
static bool is_row_of(lent in, uz_place place, uz_owned said, lent chain) {
    uint64_t row = place.row;
    if (said.refused != UZ_ACCEPTED || said.in_payload != place.in_payload ||
        said.at != cell(in, row, UZ_ADDRESS) || said.depth != cell(in, row, UZ_DEPTH))
        return false;
    for (uint64_t link = said.depth;; link--) {
        if (link < chain.numbers && chain.table[link] != cell(in, row, UZ_ADDRESS))
            return false;
        if (link == 0)
            return cell(in, row, UZ_PARENT) == 0;
        row = cell(in, row, UZ_PARENT) - 1;
    }
}

static bool is_range(uz_range said, uint64_t refused, uint64_t at, uint64_t length) {
    return said.refused == refused && said.at == at && said.length == length;
}

static bool same_range(uz_range one, uz_range other) {
    return is_range(one, other.refused, other.at, other.length);
}

// The reply of uz_row_payload that is due to a table of any numbers.
static uz_range due_payload(uint64_t length, const uint64_t *table, uint64_t numbers,
                            uint64_t row) {
    uz_range due = {UZ_BAD_ARGUMENT, 0, 0};
    if (length > UZ_MOST_BYTES || numbers % UZ_WIDTH != 0 || numbers > UZ_MOST_NUMBERS ||
        row >= numbers / UZ_WIDTH)
        return due;
    const uint64_t *cells = table + row * UZ_WIDTH;
    uint64_t left = length;
    for (unsigned column = UZ_ADDRESS; column <= UZ_PAYLOAD; column++) {
        if (cells[column] > left)
            return due;
        left -= cells[column];
    }
    due.refused = UZ_ACCEPTED;
    due.at = cells[UZ_ADDRESS] + cells[UZ_HEADER];
    due.length = cells[UZ_PAYLOAD];
    return due;
}

// The reply of uz_shown_text that is due, and in `looked_at` how many bytes of the payload may be
// looked at for it: the text, and the zero byte that ends it.
static uz_range due_text(recording from, const uint64_t *table, uint64_t numbers, uint64_t row,
                         uint64_t *looked_at) {
    uz_range due = due_payload(from.length, table, numbers, row);
    uint64_t kind = due.refused == UZ_ACCEPTED ? table[row * UZ_WIDTH + UZ_KIND] : 0;
    uint64_t shown = 0;
    *looked_at = 0;
    if (kind != UZ_STRING && kind != UZ_UTF8)
        return (uz_range){UZ_BAD_ARGUMENT, 0, 0};
    while (shown < due.length && from.bytes[due.at + shown] != 0)
        shown++;
    *looked_at = shown < due.length ? shown + 1 : shown;
    due.length = shown;
    return due;
}

// What holds of the replies about a row that was written for the recording: where its payload is,
// and if it is a text row, that what is shown of it is UTF-8.
static void check_row(recording from, lent in, uint64_t row, uz_range payload, uz_range text) {
    uint64_t at = cell(in, row, UZ_ADDRESS) + cell(in, row, UZ_HEADER);
    uint64_t kind = cell(in, row, UZ_KIND);
    bool is_text = kind == UZ_STRING || kind == UZ_UTF8;
    check(is_range(payload, UZ_ACCEPTED, at, cell(in, row, UZ_PAYLOAD)),
          "a row of an accepted table has its payload");
    check(text.refused == (is_text ? UZ_ACCEPTED : UZ_BAD_ARGUMENT),
          "a row of an accepted table has a text if it is one");
    check(!is_text || (text.at == at && is_utf8(from.bytes + at, text.length)),
          "a shown text begins with its payload, and is UTF-8");
}

#endif
