// Rows, headers and seek entries, worked out in C: see unproved.h. Nothing here is proved.
#include "unproved.h"

#include "ids.h"

uint64_t first_row(uint64_t parent) {
    return parent == NO_ROW ? 0 : parent + 1;
}

// What a row holds stands right behind it, so the children are those rows that follow one another
// by row_after.
uint64_t next_child(const part *in, uint64_t parent, uint64_t from, uint64_t id, uint64_t kind) {
    uint64_t end = parent == NO_ROW ? in->reply.rows : row_after(in, parent);
    for (uint64_t row = from; row < end; row = row_after(in, row))
        if (cell(in, row, UZ_ID) == id && cell(in, row, UZ_KIND) == kind)
            return row;
    return NO_ROW;
}

uint64_t last_child(const part *in, uint64_t parent, uint64_t id, uint64_t kind) {
    uint64_t last = NO_ROW;
    uint64_t row = next_child(in, parent, first_row(parent), id, kind);
    for (; row != NO_ROW; row = next_child(in, parent, row_after(in, row), id, kind))
        last = row;
    return last;
}

uint64_t row_at(const part *in, uint64_t address) {
    uint64_t row = 0;
    while (row + 1 < in->reply.rows && header_of(in, row) != address)
        row++;
    return row;
}

unsigned level_below(const part *in, uint64_t ancestor, uint64_t row, uint64_t id) {
    unsigned level = 0;
    for (;; level++) {
        if (cell(in, row, UZ_ID) != id || cell(in, row, UZ_KIND) != UZ_MASTER ||
            cell(in, row, UZ_PARENT) == 0)
            return NO_LEVEL;
        row = cell(in, row, UZ_PARENT) - 1;
        if (row == ancestor)
            return level;
    }
}

// Nothing inside a row that is not one of them has a level either.
uint64_t next_nested(const part *in, uint64_t row, unsigned level) {
    return level != NO_LEVEL ? row + 1 : row_after(in, row);
}

uint64_t language_of(const part *in, uint64_t row, uint64_t ietf, uint64_t iso) {
    uint64_t language = last_child(in, row, ietf, UZ_STRING);
    return language != NO_ROW ? language : last_child(in, row, iso, UZ_STRING);
}

uint64_t tag_value(const part *in, uint64_t simple) {
    uint64_t string = last_child(in, simple, TAG_STRING, UZ_UTF8);
    uint64_t binary = last_child(in, simple, TAG_BINARY, UZ_BINARY);
    if (string == NO_ROW || binary == NO_ROW)
        return string != NO_ROW ? string : binary;
    return string > binary ? string : binary;
}

uint64_t number_in(const part *in, uint64_t row) {
    uz_range range = payload_of(in, row);
    uint64_t number = 0;
    for (uint64_t i = 0; i < range.length; i++)
        number = number << 8 | in->from->bytes[range.at + i];
    return number;
}

bool flag_in(const part *in, uint64_t row, bool unset) {
    return row == NO_ROW ? unset : number_in(in, row) != 0;
}

uint64_t next_string(const part *in, uint64_t atom, uint64_t from, uint64_t *display) {
    uint64_t row = next_child(in, atom, from, CHAPTER_DISPLAY, UZ_MASTER);
    for (; row != NO_ROW;
         row = next_child(in, atom, row_after(in, row), CHAPTER_DISPLAY, UZ_MASTER)) {
        uint64_t string = last_child(in, row, CHAP_STRING, UZ_UTF8);
        *display = row;
        if (string != NO_ROW)
            return string;
    }
    return NO_ROW;
}

uint64_t label_in(const part *in, uint64_t string) {
    return string != NO_ROW && text_of(in, string).length > 0 ? string : NO_ROW;
}

const char *track_type(uint64_t type) {
    static const char *const names[33] = {
        [1] = "video",     [2] = "audio",    [3] = "complex", [16] = "logo",
        [17] = "subtitle", [18] = "buttons", [32] = "control"};
    return type < 33 && names[type] != NULL ? names[type] : "unknown";
}

// A number of document 01's headers: zero bits tell how many bytes it has, at most `most`. The
// marker stays in an id and is taken off a size. Answers a refusal's number.
static uint64_t read_number(const recording *from, uint64_t *at, unsigned most, uint64_t *number) {
    uint64_t zeros = 0;
    uint64_t byte = *at;
    while (byte < from->length && from->bytes[byte] == 0) {
        byte++;
        zeros += 8;
    }
    if (byte >= from->length)
        return UZ_PAST_END;
    for (unsigned first = from->bytes[byte]; first < 0x80; first <<= 1)
        zeros++;
    if (zeros >= most)
        return most == 4 ? UZ_INVALID_ID : UZ_INVALID_SIZE;
    if (from->length - *at <= zeros)
        return UZ_PAST_END;
    *number = 0;
    for (uint64_t end = *at + zeros + 1; *at < end; (*at)++)
        *number = *number << 8 | from->bytes[*at];
    return UZ_ACCEPTED;
}

uint64_t read_header(const recording *from, uint64_t at, header *to) {
    to->at = at;
    to->payload = at;
    if (at > from->length)
        return UZ_PAST_END;
    uint64_t refused = read_number(from, &to->payload, 4, &to->id);
    uint64_t before = to->payload;
    if (refused == UZ_ACCEPTED)
        refused = read_number(from, &to->payload, 8, &to->size);
    if (refused != UZ_ACCEPTED)
        return refused;
    uint64_t marker = UINT64_C(1) << 7 * (to->payload - before);
    to->size -= marker;
    to->unknown = to->size == marker - 1;
    return UZ_ACCEPTED;
}

// Whether an element ends one of unknown size that it follows: a Segment or a Cluster.
static bool ends(uint64_t open, uint64_t next) {
    static const uint64_t children[] = {SEEK_HEAD, INFO, UZ_TRACKS,      UZ_CHAPTERS,
                                        CLUSTER,   CUES, UZ_ATTACHMENTS, UZ_TAGS};
    bool found = next == SEGMENT || next == EBML;
    for (unsigned i = 0; open == CLUSTER && i < sizeof children / sizeof *children; i++)
        found = found || next == children[i];
    return found;
}

// Where an element ends; `limit` is the end of the segment around it, or of the file. One of
// unknown size ends in live mode where another begins that ends it, or at the limit, or with the
// file. False if that can't be told. What ends a Segment ends the Cluster in it, so that one is
// gone into.
static bool find_end(const recording *from, const header *of, uint64_t limit, uint64_t *end) {
    *end = of->payload + of->size;
    if (from->mode != UZ_LIVE || !of->unknown)
        return true;
    header next;
    uint64_t at = of->payload;
    while (at < limit && at < from->length) {
        if (read_header(from, at, &next) != UZ_ACCEPTED)
            return false;
        if (ends(of->id, next.id))
            break;
        if (next.unknown && (of->id != SEGMENT || next.id != CLUSTER))
            return false;
        at = next.unknown ? next.payload : next.payload + next.size;
    }
    if (at > from->length)
        at = from->length;
    *end = at < limit ? at : limit;
    return of->id == SEGMENT || of->id == CLUSTER;
}

bool find_segment(const recording *from, header *segment) {
    uint64_t at = 0;
    while (read_header(from, at, segment) == UZ_ACCEPTED) {
        if (segment->id == SEGMENT)
            return true;
        if (!find_end(from, segment, from->length, &at))
            return false;
    }
    return false;
}

bool next_in_segment(const recording *from, const header *segment, header *child) {
    bool endless = from->mode == UZ_LIVE && segment->unknown;
    uint64_t end = endless ? from->length : segment->payload + segment->size;
    uint64_t at = segment->payload;
    if (child->payload != 0) {
        if (child->unknown && from->mode != UZ_LIVE)
            return false;
        if (!find_end(from, child, end, &at))
            return false;
    }
    return at < end && read_header(from, at, child) == UZ_ACCEPTED &&
           !(endless && ends(SEGMENT, child->id));
}

void find_around(const recording *from, uint64_t address, surroundings *to) {
    uint64_t end = 0;
    uint64_t limit = from->length;
    header of;
    to->count = 0;
    to->start = 0;
    to->in_header = false;
    if (from->mode != UZ_LIVE)
        return;
    while (to->count < MOST_AROUND && read_header(from, to->start, &of) == UZ_ACCEPTED) {
        bool master = of.id == SEGMENT || (of.id == CLUSTER && of.unknown);
        bool told = find_end(from, &of, limit, &end);
        if (told && address >= end) {
            to->start = end;
            continue;
        }
        // A header of known size is the question's own matter.
        to->in_header = master && of.unknown && address < of.payload;
        if (!told || !master || (address < of.payload && !to->in_header))
            return;
        to->masters[to->count++] = of;
        to->start = of.payload;
        limit = end < limit ? end : limit;
        if (to->in_header)
            return;
    }
}

// The rows are those of the address question, which is put for the first byte.
bool read_head(const recording *from, const header *head, part *to) {
    static uint64_t table[UZ_MOST_NUMBERS];
    uz_place place = uz_whose_byte(from->bytes, (size_t)from->length, head->payload, head->size,
                                   SEGMENT, head->payload, table, UZ_MOST_NUMBERS, from->mode);
    *to = (part){.name = "SeekHead",
                 .id = SEEK_HEAD,
                 .parent = SEGMENT,
                 .from = from,
                 .reply = {.refused = place.refused,
                           .refused_at = place.refused_at,
                           .at = head->payload,
                           .size = head->size,
                           .rows = place.rows},
                 .table = table};
    return place.refused == UZ_ACCEPTED;
}

seek_entry entry_in(const part *head, uint64_t seek) {
    seek_entry entry = {header_of(head, seek), 0, 0, 0};
    uint64_t id = last_child(head, seek, SEEK_ID, UZ_BINARY);
    uint64_t position = last_child(head, seek, SEEK_POSITION, UZ_UNSIGNED);
    // Of the id the last four bytes count.
    if (id != NO_ROW)
        entry.id = number_in(head, id) & UINT32_MAX;
    if (position != NO_ROW) {
        entry.position = number_in(head, position);
        entry.width = payload_of(head, position).length;
    }
    return entry;
}

// The last entry for an id directly in a head; false if there is none.
static bool entry_for(const part *head, uint64_t id, seek_entry *to) {
    bool found = false;
    uint64_t row = next_child(head, NO_ROW, 0, SEEK, UZ_MASTER);
    for (; row != NO_ROW; row = next_child(head, NO_ROW, row_after(head, row), SEEK, UZ_MASTER)) {
        seek_entry entry = entry_in(head, row);
        if (entry.id != id)
            continue;
        *to = entry;
        found = true;
    }
    return found;
}

// The first seek head of the segment; false if there is none, or if an element of that id stands
// before it, which the search then takes.
static bool first_head(const recording *from, const header *segment, uint64_t id, header *head) {
    *head = (header){0, 0, 0, 0, false};
    while (next_in_segment(from, segment, head)) {
        if (head->id == SEEK_HEAD)
            return true;
        if (head->id == id)
            return false;
    }
    return false;
}

bool find_entry(const recording *from, const header *segment, uint64_t id, seek_entry *to) {
    bool found = false;
    header head;
    if (!first_head(from, segment, id, &head))
        return false;
    for (unsigned heads = 0; heads < UZ_MOST_HEADS && head.id == SEEK_HEAD; heads++) {
        part rows;
        seek_entry link;
        if (!read_head(from, &head, &rows))
            break;
        found = entry_for(&rows, id, to) || found;
        if (!entry_for(&rows, SEEK_HEAD, &link) || link.position > from->length ||
            read_header(from, segment->payload + link.position, &head) != UZ_ACCEPTED)
            break;
    }
    return found;
}
