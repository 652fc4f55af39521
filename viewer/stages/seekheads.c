// What is told of a byte in a seek head. Heads and entries are found in unproved.c.
#include "seekheads.h"

#include "ids.h"
#include "names.h"
#include "show.h"
#include "tell.h"

#include <inttypes.h>

bool is_unfilled(const seek_entry *entry) {
    return entry->width >= 4 && entry->position == UINT64_MAX >> (64 - 8 * entry->width);
}

static void tell_entry(const recording *from, const header *segment, const seek_entry *entry) {
    fputs("entry ", stdout);
    show_address(entry->at);
    printf(" id %" PRIX64 " %s position %" PRIu64, entry->id, element_name(entry->id),
           entry->position);
    if (is_unfilled(entry)) {
        puts(" was never filled in");
        return;
    }
    fputs(" leads to ", stdout);
    if (entry->position > UINT64_MAX - segment->payload) {
        puts("no address: it is too large for any file");
        return;
    }
    uint64_t address = segment->payload + entry->position;
    header there;
    uint64_t refused = read_header(from, address, &there);
    show_address(address);
    if (address >= from->length)
        puts(", past the end of the file");
    else if (refused != UZ_ACCEPTED)
        printf(", where no header can be read: %s\n", uz_refusal_words(refused).meaning);
    else
        printf(", where %" PRIX64 " %s stands%s\n", there.id, element_name(there.id),
               there.id == entry->id ? "" : ": the entry is stale");
}

static bool tell_head_byte(const recording *from, const header *segment, const header *child,
                           uint64_t address, int *status) {
    part head;
    if (!read_head(from, child, &head)) {
        *status = tell_refused(&head, head.reply.refused, 0, head.reply.refused_at);
        return false;
    }
    // An entry stands directly in the head, so it is the outermost.
    uint64_t row = tell_owner(&head, address);
    if (row != NO_ROW && cell(&head, row, UZ_ID) == SEEK) {
        seek_entry entry = entry_in(&head, row);
        tell_entry(from, segment, &entry);
    }
    return row != NO_ROW;
}

bool tell_seek_head(const recording *from, uint64_t address, int *status) {
    header segment;
    header child = {0, 0, 0, 0, false};
    if (!find_segment(from, &segment))
        return false;
    while (next_in_segment(from, &segment, &child) && child.payload <= address)
        if (child.id == SEEK_HEAD && address - child.payload < child.size)
            return tell_head_byte(from, &segment, &child, address, status);
    return false;
}
