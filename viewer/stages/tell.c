// Rows and refusals, told in a line each.
#include "tell.h"

#include "names.h"
#include "show.h"
#include "unproved.h"

#include <inttypes.h>

void tell_place(const char *word, uint64_t at, uint64_t length) {
    printf(" %s ", word);
    show_address(at);
    printf("+%" PRIu64, length);
}

static void tell_id(const part *in, uint64_t row) {
    printf(" id %" PRIX64 " %s", cell(in, row, UZ_ID), element_name(cell(in, row, UZ_ID)));
}

static void tell_places(const part *in, uint64_t row) {
    uz_range payload = payload_of(in, row);
    tell_place("header", header_of(in, row), cell(in, row, UZ_HEADER));
    tell_place("payload", payload.at, payload.length);
}

static void tell_row(const part *in, uint64_t row, bool in_payload) {
    uz_range text = text_of(in, row);
    printf("%s row %" PRIu64 " %s", in->name, row, in_payload ? "payload" : "header");
    tell_id(in, row);
    printf(" kind %s", kind_name(cell(in, row, UZ_KIND)));
    tell_places(in, row);
    if (text.refused == UZ_ACCEPTED) {
        fputs(" text ", stdout);
        show_text(stdout, in->from->bytes + text.at, text.length);
    }
    putchar('\n');
}

uint64_t tell_owner(const part *in, uint64_t address) {
    uint64_t chain[UZ_MOST_LINKS];
    uz_owned owned = owner_in(in, address, chain);
    if (owned.refused != UZ_ACCEPTED)
        return NO_ROW;
    tell_row(in, row_at(in, owned.at), owned.in_payload != 0);
    for (uint64_t i = 0; i < owned.depth; i++) {
        uint64_t row = row_at(in, chain[i]);
        printf("  in row %" PRIu64, row);
        tell_id(in, row);
        tell_places(in, row);
        putchar('\n');
    }
    return row_at(in, chain[0]);
}

// The place that a refusal is about. What stands there is read once more, by the viewer itself.
static void tell_broken(const recording *from, uint64_t at) {
    header there;
    uint64_t refused = read_header(from, at, &there);
    fputs(" at ", stderr);
    show_both(stderr, at);
    if (at >= from->length)
        fputs(", past the end of the file", stderr);
    else if (refused != UZ_ACCEPTED)
        fputs(", where no header can be read", stderr);
    else
        fprintf(stderr, ", where %" PRIX64 " %s stands", there.id, element_name(there.id));
}

bool has_address(uint64_t number) {
    return number != UZ_BAD_ARGUMENT && number != UZ_OUTSIDE;
}

int tell_refused(const part *of, uint64_t number, uint64_t id, uint64_t at) {
    fputs("stages: ", stderr);
    show_word(stderr, of->from->name);
    fprintf(stderr, ": %s: refused %" PRIu64, of->name, number);
    if (number == UZ_INVALID_SEEK_HEAD)
        fprintf(stderr, " %" PRIX64, id);
    if (has_address(number))
        tell_broken(of->from, at);
    fprintf(stderr, ": %s\n", uz_refusal_words(number).meaning);
    return 1;
}

void tell_next(const recording *from, const char *next) {
    fputs("stages: ", stderr);
    show_word(stderr, from->name);
    fprintf(stderr, ": what to do: %s\n", next);
}
