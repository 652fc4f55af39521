// The address question, put to the seek heads and the four parts, and for a byte in none of the
// four to the whole file.
#include "whose.h"

#include "faults.h"
#include "names.h"
#include "parts.h"
#include "seekheads.h"
#include "show.h"
#include "tell.h"
#include "unproved.h"

#include <inttypes.h>

// Each part whose payload holds the byte is told; a part's own header is in no payload.
static bool tell_parts(const part all[PARTS], uint64_t address) {
    bool held = false;
    for (unsigned i = 0; i < PARTS; i++)
        held = tell_owner(&all[i], address) != NO_ROW || held;
    return held;
}

// The rest of a line on an element by its header, which the reader has come to. Its size is what
// the header says: the file may end before.
static void tell_element(const recording *from, uint64_t at) {
    header of = {0, 0, 0, 0, false};
    read_header(from, at, &of);
    printf(" id %" PRIX64 " %s", of.id, element_name(of.id));
    tell_place("header", at, of.payload - at);
    tell_place("payload", of.payload, of.size);
    if (of.unknown) {
        fputs(", a size that is not known", stdout);
    } else if (of.size > from->length - of.payload) {
        fputs(", but the file ends at ", stdout);
        show_address(from->length);
    }
    putchar('\n');
}

static void tell_master(const recording *from, uint64_t at) {
    fputs("  in", stdout);
    tell_element(from, at);
}

// The element that holds the byte by the order of the file, and the masters around it from the
// outside in. In live mode the question begins behind the headers of unknown size. A refusal is
// left in the reply of `file`.
static bool tell_in_file(part *file, uint64_t address) {
    uint64_t chain[UZ_MOST_LINKS];
    surroundings around;
    uz_owned owned = {UZ_ACCEPTED, 0, 0, 0, 0};
    find_around(file->from, address, &around);
    if (around.in_header) {
        owned.at = around.masters[--around.count].at;
    } else {
        file->reply.at = around.start;
        file->parent = around.count > 0 ? (uint32_t)around.masters[around.count - 1].id : 0;
        owned = owner_in(file, address, chain);
    }
    file->reply.refused = owned.refused;
    file->reply.refused_at = owned.refused_at;
    if (owned.refused != UZ_ACCEPTED)
        return false;
    printf("file %s", owned.in_payload ? "payload" : "header");
    tell_element(file->from, owned.at);
    for (unsigned i = 0; i < around.count; i++)
        tell_master(file->from, around.masters[i].at);
    for (uint64_t i = 0; i < owned.depth; i++)
        tell_master(file->from, chain[i]);
    return true;
}

int tell_whose(const recording *from, uint64_t address) {
    // Behind the four parts the file itself, as one payload without an end.
    part all[PARTS + 1] = {
        [PARTS] = {.name = "file", .from = from, .reply = {.size = UINT64_MAX}},
    };
    remarks odd;
    find_parts(from, all);
    find_remarks(from, all, &odd);
    int status = odd.count > 0;
    bool held = tell_seek_head(from, address, &status);
    held = tell_parts(all, address) || tell_in_file(&all[PARTS], address) || held;
    if (!held) {
        show_address(address);
        puts(" lies in no part that could be read");
    }
    fflush(stdout);
    return tell_faults(all, PARTS + 1, &odd) | status;
}
