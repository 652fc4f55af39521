// The seven calls with a fault each, to see that replay tells it: linked between replay and the
// archive, whose functions then are called shipped_*. The environment's FAULT names one of the
// faults.
#include "uzrafmed.h"

#include <stdlib.h>
#include <string.h>

uz_part shipped_find_part(const uint8_t *recording, size_t length, uint32_t part, uint64_t *table,
                          size_t numbers, uint32_t mode);
uz_range shipped_row_payload(const uint8_t *recording, size_t length, const uint64_t *table,
                             size_t numbers, uint64_t row);
uz_range shipped_shown_text(const uint8_t *recording, size_t length, const uint64_t *table,
                            size_t numbers, uint64_t row);
uz_place shipped_whose_byte(const uint8_t *recording, size_t length, uint64_t start, uint64_t size,
                            uint32_t parent, uint64_t address, uint64_t *table, size_t numbers,
                            uint32_t mode);

uz_owned shipped_owner(const uint8_t *recording, size_t length, uint64_t start, uint64_t size,
                       uint32_t parent, uint64_t address, uint32_t mode);
uz_owned shipped_owner_chain(const uint8_t *recording, size_t length, uint64_t start, uint64_t size,
                             uint32_t parent, uint64_t address, uint64_t *chain, size_t links,
                             uint32_t mode);

uz_opened shipped_open(const uint8_t *recording, size_t length, uint64_t *info, size_t info_numbers,
                       uint64_t *tracks, size_t tracks_numbers, uint64_t *attachments,
                       size_t attachments_numbers, uint64_t *chapters, size_t chapters_numbers,
                       uint64_t *tags, size_t tags_numbers, uint32_t mode);

// Set while what is due without a fault is worked out.
static int innocent;

// The environment is read once: how much stands in it is not to count for the time of a call.
static int is(const char *fault) {
    static const char *asked;
    static int is_read;
    if (!is_read) {
        asked = getenv("FAULT");
        is_read = 1;
    }
    return !innocent && asked != NULL && strcmp(asked, fault) == 0;
}

// What is read but not needed.
static volatile uint64_t seen;

static unsigned calls;

// What a search and an address question may do wrong to the recording and the table.
static void damage(const uint8_t *recording, size_t length, uint64_t *table, size_t numbers,
                   uint64_t refused) {
    if (is("table_not_cleared") && refused != 0 && numbers > 0)
        table[numbers - 1] = 1;
    if (is("rest_not_cleared") && refused == 0 && numbers > 0)
        table[numbers - 1] += 1;
    if (is("row_changed") && refused == 0 && numbers > 0)
        table[UZ_PAYLOAD] ^= 1;
    // An id is never 0, so there is a row.
    if (is("row_behind_changed") && refused == 0 && numbers > 0 && table[UZ_ID] != 0)
        table[UZ_AFTER] += 1;
    if (is("number_behind_the_table"))
        table[numbers] = 0;
    if (is("number_before_the_table"))
        table[-1] = 0;
    // A recording that is too long can't be read at all.
    if (length == 0 || length > UZ_MOST_BYTES)
        return;
    if (is("byte_behind_the_recording"))
        seen += recording[length];
    if (is("byte_before_the_recording"))
        seen += recording[-1];
    if (is("recording_written"))
        *(uint8_t *)(uintptr_t)recording ^= 1;
    if (is("square_of_the_length"))
        for (size_t i = 0; i < length; i++)
            for (size_t k = 0; k < length; k++)
                seen += recording[k];
}

// What may be wrong with the address of a refusal.
static uint64_t misplaced(uint64_t refused, uint64_t at) {
    if (is("address_after_acceptance") && refused == 0)
        return 1;
    if (is("address_of_what_was_asked") && (refused == UZ_BAD_ARGUMENT || refused == UZ_OUTSIDE))
        return 1;
    if (is("address_of_no_bad_header") && refused == UZ_INVALID_ID)
        return at + 1;
    if (is("address_of_the_first_byte") && refused == UZ_NOT_UTF8)
        return 0;
    if (is("address_of_the_payload") && refused >= UZ_INVALID_INTEGER && refused <= UZ_NOT_UTF8)
        return at + 2;
    if (is("address_of_the_segment") && refused == UZ_HEAD_AGAIN)
        return 0;
    if (is("address_behind_an_unknown_size") && refused == UZ_UNKNOWN_SIZE)
        return at + 1;
    if (is("another_address_each_time") && refused == UZ_TOO_MANY_HEADS)
        return at + (++calls & 1);
    return at;
}

// ---- Faults of live mode ----

// A header, as far as these faults need one: its length, or 0.
static unsigned header(const uint8_t *recording, size_t length, uint64_t at, uint32_t *id,
                       uint64_t *size, unsigned *width) {
    uint64_t numbers[2] = {0, 0};
    uint64_t from = at;
    for (unsigned i = 0; i < 2; i++) {
        unsigned octets = 1, most = i == 0 ? 4 : 8;
        if (at >= length)
            return 0;
        while (octets <= most && (recording[at] & (0x100u >> octets)) == 0)
            octets++;
        if (octets > most || length - at < octets)
            return 0;
        for (unsigned k = 0; k < octets; k++)
            numbers[i] = numbers[i] << 8 | recording[at++];
        *width = octets;
    }
    *id = (uint32_t)numbers[0];
    *size = numbers[1] - (UINT64_C(1) << 7 * *width);
    return (unsigned)(at - from);
}

#define SEGMENT UINT32_C(0x18538067)
#define CLUSTER UINT32_C(0x1F43B675)
#define EBML UINT32_C(0x1A45DFA3)
#define SEEK_HEAD UINT32_C(0x114D9B74)

// Whether an element ends a Cluster.
static int ends_cluster(uint32_t id) {
    if (is("void_ends_a_cluster") && id == 0xEC)
        return 1;
    if (is("checksum_ends_a_cluster") && id == 0xBF)
        return 1;
    if (is("part_ends_no_cluster"))
        return id == CLUSTER || id == SEGMENT || id == EBML;
    if (is("cluster_ends_no_cluster") && id == CLUSTER)
        return 0;
    return id == SEEK_HEAD || id == UINT32_C(0x1549A966) || id == UZ_TRACKS || id == UZ_CHAPTERS ||
           id == CLUSTER || id == UINT32_C(0x1C53BB6B) || id == UZ_ATTACHMENTS || id == UZ_TAGS ||
           id == SEGMENT || id == EBML;
}

// The end of a Cluster of unknown size; a refusal on the way to it is left in `said`.
static uint64_t cluster_end(const uint8_t *recording, size_t length, uint64_t at, uint64_t limit,
                            uz_part *said) {
    uint32_t id;
    uint64_t size;
    unsigned width, head;
    if (is("cluster_ended_by_the_recording_alone"))
        limit = length;
    while (at < limit && at < length) {
        head = header(recording, length, at, &id, &size, &width);
        int unknown = head != 0 && size == (UINT64_C(1) << 7 * width) - 1;
        if (head != 0 && ends_cluster(id))
            return at;
        if (head == 0 || (unknown && !is("any_unknown_size_taken"))) {
            said->refused = head == 0 ? UZ_PAST_END : UZ_UNKNOWN_SIZE;
            said->refused_at = at;
            return at;
        }
        if (is("end_found_by_the_bytes"))
            size = 0;
        at += head + size;
        // What is told of a Cluster without end.
        if (is("endless_loop_in_a_cluster"))
            for (;;)
                seen++;
    }
    if (is("block_past_the_end_taken_for_whole"))
        return at;
    return at < limit ? length : limit;
}

// Whether the way of a live search, with the fault, comes to a child of the segment that `leads`
// then is the address of; else the reply that it ends with.
static int leads_on(const uint8_t *recording, size_t length, uint32_t part, uint64_t *leads,
                    uz_part *said) {
    uint32_t id;
    uint64_t size, at = 0, end = length;
    unsigned width, head;
    int in = 0, endless = 0;
    *said = (uz_part){0, 0, 0, 0, 0, 0, 0, 0};
    for (;;) {
        if (in && at >= end && !(is("end_of_the_recording_refused") && endless))
            return 0;
        head = header(recording, length, at, &id, &size, &width);
        if (head == 0) {
            *said = (uz_part){UZ_PAST_END, 0, at, 0, 0, 0, 0, 0};
            return 0;
        }
        int unknown = size == (UINT64_C(1) << 7 * width) - 1;
        if (is("all_ones_of_one_byte_unknown") && size == 127)
            unknown = 1;
        if (is("all_ones_of_eight_bytes_alone_unknown") && width < 8)
            unknown = 0;
        if (in && endless && (id == SEGMENT || id == EBML) && !is("segment_ends_no_segment"))
            return 0;
        if (unknown && id != CLUSTER && id != SEGMENT && !is("any_unknown_size_taken")) {
            *said = (uz_part){UZ_UNKNOWN_SIZE, 0, at, 0, 0, 0, 0, 0};
            return 0;
        }
        if (in && (id == part || id == SEEK_HEAD)) {
            *leads = at;
            return 1;
        }
        if (!in && id == SEGMENT) {
            in = 1;
            endless = unknown;
            end = endless ? length : at + head + size;
            at += head;
        } else if (unknown && id == CLUSTER) {
            at = cluster_end(recording, length, at + head, end, said);
            if (said->refused != 0)
                return 0;
        } else {
            if (in && (!endless || is("overrun_of_a_live_segment")) && at + head + size > end) {
                *said = (uz_part){UZ_INVALID_SIZE, 0, at, 0, 0, 0, 0, 0};
                return 0;
            }
            at += head + size;
        }
    }
}

// What such a search replies. Where the way with the fault comes to the same as the one without,
// nothing is changed.
static uz_part live_search(const uint8_t *recording, size_t length, uint32_t part, uint64_t *table,
                           size_t numbers, uz_part said) {
    uint64_t leads = 0, due_leads = 0;
    uz_part ended, due;
    if (said.refused == UZ_BAD_ARGUMENT)
        return said;
    innocent = 1;
    int due_on = leads_on(recording, length, part, &due_leads, &due);
    innocent = 0;
    int on = leads_on(recording, length, part, &leads, &ended);
    if (on == due_on && leads == due_leads && ended.refused == due.refused &&
        ended.refused_at == due.refused_at)
        return said;
    memset(table, 0, numbers * sizeof *table);
    // A part that is come to by the fault is told as one of no bytes.
    if (on)
        ended.found = 1;
    return ended;
}

// A reply of plain mode in place of 17.
static int is_plainly(uint64_t refused, uint64_t at, uint64_t plain, uint64_t plain_at) {
    if (is("too_deep_before_unknown") && plain == UZ_TOO_DEEP && plain_at == at)
        return refused == UZ_UNKNOWN_SIZE;
    if (is("no_row_before_unknown") && plain == UZ_NO_FREE_ROW && plain_at == at)
        return refused == UZ_UNKNOWN_SIZE;
    if (is("too_large_before_unknown") && plain == UZ_INVALID_SIZE && plain_at == at)
        return refused == UZ_UNKNOWN_SIZE;
    if (is("stale_before_unknown") && plain == UZ_STALE_ENTRY && plain_at == at)
        return refused == UZ_UNKNOWN_SIZE;
    return is("unknown_size_in_a_payload_taken") && refused == UZ_UNKNOWN_SIZE;
}

// The mode that a faulty call reads in.
static uint32_t taken(uint32_t mode) {
    if (is("mode_that_is_none_taken_as_plain") && mode > UZ_LIVE)
        return UZ_PLAIN;
    if (is("mode_that_is_none_taken_as_live") && mode > UZ_LIVE)
        return UZ_LIVE;
    if (is("mode_by_its_lowest_bit"))
        return mode & 1;
    if (is("live_taken_as_plain") && mode == UZ_LIVE)
        return UZ_PLAIN;
    if (is("plain_taken_as_live") && mode == UZ_PLAIN)
        return UZ_LIVE;
    return mode;
}

// ---- The calls ----

uz_part uz_find_part(const uint8_t *recording, size_t length, uint32_t part, uint64_t *table,
                     size_t numbers, uint32_t mode) {
    mode = taken(mode);
    uz_part said = shipped_find_part(recording, length, part, table, numbers, mode);
    if (mode == UZ_LIVE && said.refused == UZ_UNKNOWN_SIZE) {
        uz_part plain = shipped_find_part(recording, length, part, table, numbers, UZ_PLAIN);
        if (is_plainly(said.refused, said.refused_at, plain.refused, plain.refused_at))
            said = plain;
        else
            memset(table, 0, numbers * sizeof *table);
    }
    if (mode == UZ_LIVE)
        said = live_search(recording, length, part, table, numbers, said);
    damage(recording, length, table, numbers, said.refused);
    if (is("rows_after_a_refusal") && said.refused != 0)
        said.rows = 1;
    if (is("heads_made_up") && said.refused == 0)
        said.heads = 64;
    if (is("part_moved") && said.found != 0)
        said.at++;
    if (is("another_reply_each_time") && said.refused == 0)
        said.heads = ++calls & 1;
    said.refused_at = misplaced(said.refused, said.refused_at);
    return said;
}

// A part in place of the one that is told.
static void replaced(uz_found *of, uz_part by) {
    *of = (uz_found){by.found, by.at, by.size, by.rows};
}

// What may be wrong with a refusal of all parts.
static uz_opened unopened(uz_opened said) {
    if (is("open_id_lost"))
        said.id = 0;
    if (is("open_heads_after_a_refusal"))
        said.heads = 1;
    if (is("open_part_after_a_refusal"))
        said.chapters.found = 1;
    if (is("open_overrun_taken") && said.refused == UZ_INVALID_SIZE)
        memset(&said, 0, sizeof said);
    if (is("open_stale_entry_taken_as_absent") && said.refused == UZ_STALE_ENTRY)
        memset(&said, 0, sizeof said);
    return said;
}

uz_opened uz_open(const uint8_t *recording, size_t length, uint64_t *info, size_t info_numbers,
                  uint64_t *tracks, size_t tracks_numbers, uint64_t *attachments,
                  size_t attachments_numbers, uint64_t *chapters, size_t chapters_numbers,
                  uint64_t *tags, size_t tags_numbers, uint32_t mode) {
    mode = taken(mode);
    uz_opened said =
        shipped_open(recording, length, info, info_numbers, tracks, tracks_numbers, attachments,
                     attachments_numbers, chapters, chapters_numbers, tags, tags_numbers, mode);
    damage(recording, length, tags, tags_numbers, said.refused);
    if (is("open_broken_table_not_cleared") && info_numbers % UZ_WIDTH != 0)
        info[0] = 1;
    if (is("open_one_table_not_cleared") && said.refused != 0 && chapters_numbers > 0)
        chapters[chapters_numbers - 1] = 1;
    said.refused_at = misplaced(said.refused, said.refused_at);
    if (said.refused != 0)
        return unopened(said);
    if (is("open_absent_told_as_empty") && said.tags.found == 0)
        said.tags.found = 1;
    if (is("open_first_part_wins"))
        replaced(&said.tags,
                 shipped_find_part(recording, length, UZ_TAGS, tags, tags_numbers, mode));
    if (is("open_parts_swapped")) {
        uz_found other = said.chapters;
        said.chapters = said.tags;
        said.tags = other;
    }
    if (is("open_rows_under_the_full_set") && said.info.size > 0)
        said.info.rows = shipped_whose_byte(recording, length, said.info.at, said.info.size, 0,
                                            said.info.at, info, info_numbers, mode)
                             .rows;
    if (is("open_heads_not_counted"))
        said.heads = 0;
    if (is("open_part_moved") && said.info.found != 0)
        said.info.at++;
    if (is("open_another_reply_each_time"))
        said.heads ^= ++calls & 1;
    return said;
}

uz_range uz_row_payload(const uint8_t *recording, size_t length, const uint64_t *table,
                        size_t numbers, uint64_t row) {
    uz_range said = shipped_row_payload(recording, length, table, numbers, row);
    if (is("recording_read_for_a_payload"))
        seen += recording[0];
    if (is("payload_past_the_end") && said.refused == 0)
        said.length++;
    return said;
}

// What is looked at for a text besides it, and how often.
static void look(const uint8_t *recording, size_t length, uz_range said) {
    if (said.refused != 0) {
        if (is("refused_text_looked_at") && length > 0 && length <= UZ_MOST_BYTES)
            seen += recording[0];
        return;
    }
    // Its zero byte may be looked at.
    uint64_t behind = said.at + said.length + 1;
    if (is("byte_behind_a_text") && said.length > 0 && behind < length)
        seen += recording[behind];
    if (is("byte_before_a_text") && said.length > 0 && said.at > 0)
        seen += recording[said.at - 1];
    if (is("square_of_a_text"))
        for (uint64_t i = 0; i < said.length; i++)
            for (uint64_t k = 0; k < said.length; k++)
                seen += recording[said.at + k];
}

uz_range uz_shown_text(const uint8_t *recording, size_t length, const uint64_t *table,
                       size_t numbers, uint64_t row) {
    uz_range said = shipped_shown_text(recording, length, table, numbers, row);
    uz_range payload = shipped_row_payload(recording, length, table, numbers, row);
    look(recording, length, said);
    if (is("any_row_told_as_a_text"))
        return payload;
    if (said.refused != 0) {
        if (is("address_of_no_text"))
            said.at = 1;
        return said;
    }
    if (is("table_written_for_a_text"))
        *(volatile uint64_t *)(uintptr_t)table ^= 1;
    if (is("zero_byte_told_as_text") && said.length < payload.length)
        said.length++;
    if (is("text_told_to_the_last_zero_byte"))
        for (said.length = payload.length;
             said.length > 0 && recording[said.at + said.length - 1] == 0;)
            said.length--;
    if (is("text_cut_short") && said.length > 0)
        said.length--;
    if (is("text_moved"))
        said.at++;
    if (is("empty_text_refused") && said.length == 0)
        said = (uz_range){UZ_BAD_ARGUMENT, 0, 0};
    return said;
}

uz_place uz_whose_byte(const uint8_t *recording, size_t length, uint64_t start, uint64_t size,
                       uint32_t parent, uint64_t address, uint64_t *table, size_t numbers,
                       uint32_t mode) {
    mode = taken(mode);
    uz_place said =
        shipped_whose_byte(recording, length, start, size, parent, address, table, numbers, mode);
    if (said.refused == UZ_UNKNOWN_SIZE) {
        uz_place plain = shipped_whose_byte(recording, length, start, size, parent, address, table,
                                            numbers, UZ_PLAIN);
        if (is_plainly(said.refused, said.refused_at, plain.refused, plain.refused_at))
            said = plain;
        else
            memset(table, 0, numbers * sizeof *table);
    }
    damage(recording, length, table, numbers, said.refused);
    if (is("another_owner") && said.refused == 0)
        said.row ^= 1;
    if (is("header_told_as_payload") && said.refused == 0)
        said.in_payload ^= 1;
    if (is("address_before_the_start") && said.refused == UZ_NO_FREE_ROW)
        said.refused_at = start - 1;
    said.refused_at = misplaced(said.refused, said.refused_at);
    return said;
}

// What may be wrong with the owner of a byte, by either call.
static uz_owned disowned(const uint8_t *recording, size_t length, uint64_t address, uz_owned said) {
    if (said.refused != 0) {
        if (is("owner_after_a_refusal"))
            said.at = 1;
        if (is("owner_broken_a_byte_later") && said.refused != UZ_BAD_ARGUMENT &&
            said.refused != UZ_OUTSIDE)
            said.refused_at++;
        if (is("owner_too_deep_told_as_too_large") && said.refused == UZ_TOO_DEEP)
            said.refused = UZ_INVALID_SIZE;
        if (is("owner_outside_told_as_bad_argument") && said.refused == UZ_OUTSIDE)
            said.refused = UZ_BAD_ARGUMENT;
        return said;
    }
    if (is("owner_told_by_its_payload") && said.in_payload != 0)
        said.at = address;
    if (is("owner_header_told_as_payload"))
        said.in_payload ^= 1;
    if (is("owner_a_master_deeper"))
        said.depth++;
    if (is("owner_body_looked_at") && said.in_payload != 0 && address < length)
        seen += recording[address];
    if (is("owner_cut_off_refused") && address >= length)
        said = (uz_owned){UZ_PAST_END, said.at, 0, 0, 0};
    if (is("square_of_the_way"))
        for (uint64_t i = 0; i < said.at; i++)
            for (uint64_t k = 0; k < said.at; k++)
                seen += recording[k];
    return said;
}

uz_owned uz_owner(const uint8_t *recording, size_t length, uint64_t start, uint64_t size,
                  uint32_t parent, uint64_t address, uint32_t mode) {
    mode = taken(mode);
    uz_owned said = shipped_owner(recording, length, start, size, parent, address, mode);
    if (is("owner_in_live_mode_not_asked_for_unknown") && said.refused == UZ_UNKNOWN_SIZE)
        said = shipped_owner(recording, length, start, size, parent, address, UZ_PLAIN);
    if (is("owner_unlike_its_chain") && said.refused == 0)
        said.depth = 0;
    if (is("another_owner_each_time") && said.refused == 0)
        said.in_payload ^= ++calls & 1;
    return disowned(recording, length, address, said);
}

uz_owned uz_owner_chain(const uint8_t *recording, size_t length, uint64_t start, uint64_t size,
                        uint32_t parent, uint64_t address, uint64_t *chain, size_t links,
                        uint32_t mode) {
    mode = taken(mode);
    uz_owned said =
        shipped_owner_chain(recording, length, start, size, parent, address, chain, links, mode);
    if (is("chain_not_cleared") && said.refused != 0 && links > 0)
        chain[0] = 1;
    if (is("chain_too_long_not_cleared") && links > UZ_MOST_LINKS)
        chain[links - 1] = 1;
    if (is("chain_too_long_taken") && links > UZ_MOST_LINKS)
        return shipped_owner(recording, length, start, size, parent, address, mode);
    if (is("chain_without_its_end") && said.refused == 0 && said.depth < links)
        chain[said.depth] = 0;
    if (is("chain_told_again_behind_its_end") && said.refused == 0 && said.depth + 1 < links)
        chain[said.depth + 1] = said.at;
    if (is("chain_from_the_inside_out") && said.refused == 0 && said.depth > 0 &&
        said.depth < links) {
        chain[said.depth] = chain[0];
        chain[0] = said.at;
    }
    if (is("chain_too_short_refused") && said.refused == 0 && said.depth >= links)
        said = (uz_owned){UZ_BAD_ARGUMENT, 0, 0, 0, 0};
    if (is("number_behind_the_chain"))
        chain[links] = 0;
    if (is("number_before_the_chain"))
        chain[-1] = 0;
    return disowned(recording, length, address, said);
}
