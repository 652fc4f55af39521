// Asks the reader for the four parts, and hands out what its rows hold.
#include "parts.h"

static uint64_t tables[PARTS][UZ_MOST_NUMBERS];

void find_parts(const recording *from, part all[PARTS]) {
    static const struct {
        const char *name;
        uint32_t id;
        uint32_t parent;
    } four[PARTS] = {
        [TRACKS_PART] = {"Tracks", UZ_TRACKS, UZ_UNDER_TRACKS},
        [ATTACHMENTS_PART] = {"Attachments", UZ_ATTACHMENTS, UZ_UNDER_ATTACHMENTS},
        [CHAPTERS_PART] = {"Chapters", UZ_CHAPTERS, UZ_UNDER_CHAPTERS},
        [TAGS_PART] = {"Tags", UZ_TAGS, UZ_UNDER_TAGS},
    };
    for (unsigned i = 0; i < PARTS; i++) {
        all[i] = (part){.name = four[i].name,
                        .id = four[i].id,
                        .parent = four[i].parent,
                        .from = from,
                        .table = tables[i]};
        all[i].reply = uz_find_part(from->bytes, (size_t)from->length, all[i].id, all[i].table,
                                    UZ_MOST_NUMBERS, from->mode);
    }
}

uz_owned owner_in(const part *in, uint64_t address, uint64_t chain[UZ_MOST_LINKS]) {
    return uz_owner_chain(in->from->bytes, (size_t)in->from->length, in->reply.at, in->reply.size,
                          in->parent, address, chain, UZ_MOST_LINKS, in->from->mode);
}

uint64_t cell(const part *in, uint64_t row, unsigned column) {
    return in->table[row * UZ_WIDTH + column];
}

uint64_t row_after(const part *in, uint64_t row) {
    return cell(in, row, UZ_AFTER);
}

uint64_t header_of(const part *in, uint64_t row) {
    return cell(in, row, UZ_ADDRESS);
}

uz_range payload_of(const part *in, uint64_t row) {
    return uz_row_payload(in->from->bytes, (size_t)in->from->length, in->table, UZ_MOST_NUMBERS,
                          row);
}

uz_range text_of(const part *in, uint64_t row) {
    return uz_shown_text(in->from->bytes, (size_t)in->from->length, in->table, UZ_MOST_NUMBERS,
                         row);
}
